/* Why is it on the list? A query prints the held bonds that hang on C5, and each line is shown with the first chain that leads there. */
#include "relcalc.h"

#include <stdio.h>
#include <string.h>

/* from B7 to C5: two chains of three elements, by C10 and by C20, and a longer one by C1 */
static const char facts[] = "On C10 C5\n"
                            "On C5 C2\n"
                            "On B7 C10\n"
                            "On B7 C20\n"
                            "On C20 C5\n"
                            "On B7 C1\n"
                            "On C1 C10\n"
                            "On C10 C1\n"
                            "On \"5Y off the run\" C20\n"
                            "On B9 C2\n"
                            "Held B7\n"
                            "Held B9\n"
                            "Held \"5Y off the run\"\n";
static const char query[] = "PRINT Held(x) & EX(y, TC(On(x,y)) & y = \"C5\");";
static uint64_t store[RELCALC_STORE_WORDS];
static char page[32768 + 1];

static const uint8_t *bytes(const char *text) { return (const uint8_t *)text; }

/* A chain's numbers count the facts' elements alone: so do those of a query without left-hand strings. */
static void print_element(uint8_t number)
{
    static const char no_strings[] = "PRINT ENDL;";
    relcalc_part part = relcalc_element(bytes(facts), strlen(facts), bytes(no_strings), strlen(no_strings), number);
    printf("%.*s", (int)part.length, facts + part.offset);
}

/* The first chain of facts On between two elements. */
static void print_why(const char *first, const char *second)
{
    uint8_t numbers[RELCALC_CHAIN_BYTES];
    relcalc_chained found = relcalc_chain(bytes(facts), strlen(facts), bytes("On"), strlen("On"), bytes(first), strlen(first),
                                          bytes(second), strlen(second), numbers, sizeof numbers);
    if (found.refusal == RELCALC_NO_CHAIN)
        printf("no chain");
    else if (found.refusal)
        printf("refused %llu %llu", (unsigned long long)found.refusal, (unsigned long long)found.place);
    for (uint64_t i = 0; i < found.count; i++) {
        printf("%s", i ? " -> " : "");
        print_element(numbers[i]);
    }
    printf("\n");
}

/* The text of a line's one element: a page may have it in quotes, and no element holds a quote. */
static const char *bare(char *line)
{
    if (line[0] != '"')
        return line;
    line[strlen(line) - 1] = 0;
    return line + 1;
}

int main(void)
{
    relcalc_ran ran = relcalc_run(bytes(facts), strlen(facts), bytes(query), strlen(query), 1000000, store, RELCALC_STORE_WORDS,
                                  (uint8_t *)page, sizeof page - 1);
    if (ran.refusal || ran.ending != RELCALC_DONE)
        return 1; /* a page that is spent or full lacks lines: do not act on it */
    page[ran.written] = 0;
    for (char *line = strtok(page, "\n"); line; line = strtok(NULL, "\n")) {
        printf("%s: ", line);
        print_why(bare(line), "C5");
    }
    static const char *const questions[][2] = {{"B9", "C5"}, {"C10", "C10"}};
    for (size_t i = 0; i < sizeof questions / sizeof *questions; i++) {
        printf("%s to %s: ", questions[i][0], questions[i][1]);
        print_why(questions[i][0], questions[i][1]);
    }
    return 0;
}
