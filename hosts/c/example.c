/* The worked example, curves picked by a pattern, a name with blanks, shares of a book, each with the sizes of its relations, then two
   refusals. */
#include "relcalc.h"

#include <stdio.h>
#include <string.h>

static const char facts[] = "On C10 C5\nOn C5 C2\nOn B7 C10\nHeld B7\n";
static uint64_t store[RELCALC_STORE_WORDS];
static uint8_t output[32768];

/* how many tuples each relation has at a run's end */
static void print_sizes(const char *query, const uint64_t *counts)
{
    relcalc_checked checked = relcalc_check((const uint8_t *)facts, strlen(facts), (const uint8_t *)query, strlen(query));
    for (uint64_t i = 0; i < checked.relations; i++) {
        const relcalc_record *r = &checked.records[i];
        const char *name = (r->text == RELCALC_IN_FACTS ? facts : query) + r->offset;
        printf("%s%.*s %llu", i ? ", " : "sizes: ", (int)r->length, name, (unsigned long long)counts[i]);
    }
    printf("\n");
}

static int run(const char *query)
{
    relcalc_ran ran = relcalc_run((const uint8_t *)facts, strlen(facts), (const uint8_t *)query, strlen(query), 1000000, store,
                                  RELCALC_STORE_WORDS, output, sizeof output);
    if (ran.refusal) {
        printf("refused %llu %llu\n", (unsigned long long)ran.refusal, (unsigned long long)ran.place);
        return 1;
    }
    static const char *const endings[] = {"done", "spent", "full"};
    fwrite(output, 1, ran.written, stdout);
    printf("%s %llu\n", endings[ran.ending], (unsigned long long)ran.steps);
    print_sizes(query, ran.counts);
    return 0;
}

int main(void)
{
    int first = run("Dep(x,y) := TC(On(x,y)); PRINT [\"Dep\"] Dep(x,y);");
    int second = run("PRINT [\"starts with C1:\"] On(x,_) & @\"^C1\"(x);");
    int third = run("Held(\"5Y off the run\"); PRINT [\"Held\"] Held(x);"); /* lines of facts, so the name is in quotes */
    /* held bonds on this curve over all held bonds */
    int fourth = run("Held(\"B9\"); On(\"B9\",\"C5\"); FOR c IN On(_,x) { PRINT c, \" \", #(Held(x) & On(x,c)) / #(Held(x)), ENDL; }");
    int fifth = run("Dep(x) := TC(On(x,y));"); /* y is free on the right side only: refused 12 0 */
    int sixth = run("IF #(Held(x)) > 1000000 { PRINT \"many\"; }"); /* a number is at most 999,999: refused 19 16 */
    return !(first == 0 && second == 0 && third == 0 && fourth == 0 && fifth == 1 && sixth == 1);
}
