/* chain FACTS NAME FIRST SECOND: the shortest time of a chain call over a file, in microseconds, then its numbers on one line, or its refusal. */
#define _POSIX_C_SOURCE 200809L
#include "files.h"
#include "relcalc.h"
#include "timing.h"

#include <stdio.h>
#include <string.h>

static uint8_t facts[RELCALC_FACTS_BYTES + 1];

int main(int count, char **words)
{
    if (count != 5)
        return 2;
    size_t f = read_file(words[1], facts, sizeof facts);
    const uint8_t *texts[3];
    for (int i = 0; i < 3; i++)
        texts[i] = (const uint8_t *)words[i + 2];
    uint8_t numbers[RELCALC_CHAIN_BYTES];
    relcalc_chained found = {0};
    double call;
    SHORTEST(call, found = relcalc_chain(facts, f, texts[0], strlen(words[2]), texts[1], strlen(words[3]), texts[2], strlen(words[4]), numbers,
                                         sizeof numbers));
    printf("%.3f\n", call);
    if (found.refusal)
        printf("refused %d %d", (int)found.refusal, (int)found.place);
    for (uint64_t i = 0; i < found.count; i++)
        printf("%s%d", i ? " " : "", numbers[i]);
    printf("\n");
    return 0;
}
