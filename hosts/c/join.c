/* The rates file and the credit file as one: what a join writes, a query over it that needs both, and two files that are refused. */
#include "relcalc.h"

#include <stdio.h>
#include <string.h>

static const char rates[] = "# rates, saved with LF\n"
                            "On C10 C5\n"
                            "On C5 C2\n"
                            "On B7 C10\n"
                            "On \"5Y off the run\" C5\n"
                            "Held B7\n";
static const char credit[] = "# credit, saved with CR LF\r\n"
                             "Rated \"B7\" AA\r\n"
                             "Rated \"5Y off the run\" BBB\r\n"
                             "Held \"5Y off the run\"\r\n"
                             "Held B7\r\n";
/* On has two elements in the rates file, and a quote is left open */
static const char no_curve[] = "Rated B7 AA\nOn C5\n", no_quote[] = "Held B7\n\nHeld \"5Y off the run\n";
static const char query[] = "PRINT [\"on C2:\"] EX(y, TC(On(x,y)) & y = \"C2\") & Rated(x,r);";
static uint8_t joined[RELCALC_FACTS_BYTES]; /* enough for every join */
static uint64_t store[RELCALC_STORE_WORDS];
static uint8_t page[32768];

static const uint8_t *bytes(const char *text) { return (const uint8_t *)text; }

static void print_refused(relcalc_joined answer, const char *first, const char *second)
{
    if (answer.text == RELCALC_OF_NEITHER) {
        printf("neither text: refused %llu\n", (unsigned long long)answer.refusal);
        return;
    }
    int in_first = answer.text == RELCALC_OF_FIRST;
    unsigned line = 1;
    for (uint64_t i = 0; i < answer.place; i++)
        line += (in_first ? first : second)[i] == '\n';
    printf("%s text, line %u: refused %llu\n", in_first ? "first" : "second", line, (unsigned long long)answer.refusal);
}

/* The length of what is joined, or -1 after a line that says why there is none. */
static long join(const char *first, const char *second)
{
    relcalc_joined answer = relcalc_join(bytes(first), strlen(first), bytes(second), strlen(second), joined, sizeof joined);
    if (!answer.refusal)
        return (long)answer.length;
    print_refused(answer, first, second);
    return -1;
}

int main(void)
{
    long length = join(rates, credit);
    if (length < 0)
        return 1;
    fwrite(joined, 1, (size_t)length, stdout);
    relcalc_ran ran = relcalc_run(joined, (size_t)length, bytes(query), strlen(query), 1000000, store, RELCALC_STORE_WORDS, page,
                                  sizeof page);
    if (ran.refusal || ran.ending != RELCALC_DONE)
        return 1; /* a page that is spent or full lacks lines: do not act on it */
    fwrite(page, 1, ran.written, stdout);
    join(rates, no_curve);
    join(no_quote, credit);
    return 0;
}
