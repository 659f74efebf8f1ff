/* join FIRST SECOND: the shortest time of a join of two files, and of one with no output to write to, which is refused 21 where there is
   something to write, in microseconds; then what was written, or the refusal. */
#define _POSIX_C_SOURCE 200809L
#include "files.h"
#include "relcalc.h"
#include "timing.h"

#include <stdio.h>

static uint8_t first[RELCALC_FACTS_BYTES + 1], second[RELCALC_FACTS_BYTES + 1], output[RELCALC_FACTS_BYTES];

int main(int count, char **words)
{
    if (count != 3)
        return 2;
    size_t f = read_file(words[1], first, sizeof first), s = read_file(words[2], second, sizeof second);
    relcalc_joined joined = {0};
    double call, unwritten;
    SHORTEST(unwritten, relcalc_join(first, f, second, s, output, 0));
    SHORTEST(call, joined = relcalc_join(first, f, second, s, output, sizeof output));
    printf("%.3f %.3f\n", call, unwritten);
    if (joined.refusal)
        printf("refused %d %d\n", (int)joined.refusal, (int)joined.place);
    fwrite(output, 1, joined.length, stdout);
    return 0;
}
