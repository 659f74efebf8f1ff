/* relcalc FACTS QUERY: the shortest time of a check and of a run over two files, in microseconds, then the page that the run printed. */
#define _POSIX_C_SOURCE 200809L
#include "files.h"
#include "relcalc.h"
#include "timing.h"

#include <stdio.h>

static uint8_t facts[RELCALC_FACTS_BYTES + 1], query[RELCALC_QUERY_BYTES + 1], output[1 << 20];
static uint64_t store[RELCALC_STORE_WORDS];

int main(int count, char **words)
{
    if (count != 3)
        return 2;
    size_t f = read_file(words[1], facts, sizeof facts), q = read_file(words[2], query, sizeof query);
    relcalc_ran ran = {0};
    double check, run;
    SHORTEST(check, relcalc_check(facts, f, query, q));
    SHORTEST(run, ran = relcalc_run(facts, f, query, q, UINT32_MAX, store, RELCALC_STORE_WORDS, output, sizeof output));
    if (ran.refusal || ran.ending != RELCALC_DONE) {
        fprintf(stderr, "refusal %d at %d, ending %d\n", (int)ran.refusal, (int)ran.place, (int)ran.ending);
        return 1;
    }
    printf("%.3f %.3f\n", check, run);
    fwrite(output, 1, ran.written, stdout);
    return 0;
}
