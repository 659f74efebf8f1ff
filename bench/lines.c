/* lines FIRST SECOND: the same by hand, for files whose lines already look as a join writes them: the lines of both sorted by their bytes,
   each once. It reads no names and elements, tests nothing and has no limits. Prints its time in microseconds, then the lines. */
#define _POSIX_C_SOURCE 200809L
#include "files.h"
#include "timing.h"

#include <stdlib.h>
#include <string.h>

enum { BYTES = 32768 };
static uint8_t texts[2 * BYTES], output[2 * BYTES];
static const uint8_t *lines[2 * BYTES];

/* by bytes up to the line end, which comes before each other byte */
static int compare(const void *a, const void *b)
{
    const uint8_t *x = *(const uint8_t *const *)a, *y = *(const uint8_t *const *)b;
    while (*x == *y && *x != '\n')
        x++, y++;
    return *x - *y;
}

/* the length of what is written */
static size_t join(size_t length)
{
    size_t count = 0, written = 0;
    for (const uint8_t *at = texts; at < texts + length; at = (const uint8_t *)memchr(at, '\n', texts + length - at) + 1)
        lines[count++] = at;
    qsort(lines, count, sizeof *lines, compare);
    for (size_t i = 0; i < count; i++) {
        if (i && !compare(&lines[i - 1], &lines[i]))
            continue;
        const uint8_t *end = (const uint8_t *)memchr(lines[i], '\n', texts + length - lines[i]) + 1;
        memcpy(output + written, lines[i], end - lines[i]);
        written += end - lines[i];
    }
    return written;
}

int main(int count, char **words)
{
    if (count != 3)
        return 2;
    size_t length = read_file(words[1], texts, BYTES);
    length += read_file(words[2], texts + length, BYTES);
    size_t written = 0;
    double call;
    SHORTEST(call, written = join(length));
    printf("%.3f\n", call);
    fwrite(output, 1, written, stdout);
    return 0;
}
