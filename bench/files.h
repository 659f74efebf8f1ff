/* Files for the programs of the bench. */
#include <stdint.h>
#include <stdio.h>
#include <stdlib.h>

/* the first bytes of a file, as many as there is room for */
static size_t read_file(const char *name, uint8_t *to, size_t room)
{
    FILE *file = fopen(name, "rb");
    if (!file) {
        perror(name);
        exit(2);
    }
    size_t n = fread(to, 1, room, file);
    fclose(file);
    return n;
}
