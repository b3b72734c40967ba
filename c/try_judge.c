/* Judges files under three marks: try_judge ROUGHNESS MISFIT BEND FILE...
 *
 * Prints a line for each file: its name, and the answer as 8 digits (layer 2, number 2, line 4), 00000000 where it is
 * accepted. Ends with status 0 when all files could be read, else with 1, and with 2 where the arguments are wrong.
 */
#include <errno.h>
#include <stdio.h>
#include <stdlib.h>

#include "sablecobalt.h"

/* A mark in decimal; 0 where the text is none. */
static int read_mark(const char *text, uint32_t *mark)
{
    char *end;
    errno = 0;
    unsigned long number = strtoul(text, &end, 10);
    if (errno != 0 || end == text || *end != 0 || text[0] == '-' || number > UINT32_MAX) {
        return 0;
    }
    *mark = (uint32_t)number;
    return 1;
}

/* The bytes of a file, to be freed by the caller; null where it cannot be read. */
static uint8_t *read_file(const char *name, size_t *length)
{
    FILE *file = fopen(name, "rb");
    if (file == NULL) {
        return NULL;
    }
    size_t room = 4096;
    size_t count = 0;
    uint8_t *bytes = malloc(room);
    while (bytes != NULL) {
        count += fread(bytes + count, 1, room - count, file);
        if (count < room) {
            break;
        }
        room *= 2;
        uint8_t *more = realloc(bytes, room);
        if (more == NULL) {
            free(bytes);
        }
        bytes = more;
    }
    if (bytes != NULL && ferror(file)) {
        free(bytes);
        bytes = NULL;
    }
    fclose(file);
    *length = count;
    return bytes;
}

int main(int count, char **words)
{
    uint32_t roughness, misfit, bend;
    if (count < 4 || !read_mark(words[1], &roughness) || !read_mark(words[2], &misfit) || !read_mark(words[3], &bend)) {
        fprintf(stderr, "usage: try_judge ROUGHNESS MISFIT BEND FILE...\n");
        return 2;
    }
    int status = 0;
    for (int k = 4; k < count; k++) {
        size_t length;
        uint8_t *bytes = read_file(words[k], &length);
        if (bytes == NULL) {
            fprintf(stderr, "%s: cannot be read\n", words[k]);
            status = 1;
            continue;
        }
        uint32_t answer = sablecobalt_judge(roughness, misfit, bend, bytes, length);
        printf("%s %02X%02X%04X\n", words[k], SABLECOBALT_LAYER(answer), SABLECOBALT_NUMBER(answer), SABLECOBALT_LINE(answer));
        free(bytes);
    }
    return status;
}
