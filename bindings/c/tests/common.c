#include "common.h"
#include <stdio.h>
#include <stdlib.h>
#include <string.h>

int odd_count = 0;

bytes read_file(const char *path)
{
    bytes it = {NULL, 0};
    size_t room = 0, got = 0;
    FILE *file = fopen(path, "rb");
    if (file == NULL) {
        perror(path);
        exit(2);
    }
    do {
        it.length += got;
        if (room - it.length < 4096) {
            room = 2 * room + 65536;
            it.at = realloc(it.at, room);
            if (it.at == NULL)
                exit(2);
        }
        got = fread(it.at + it.length, 1, room - it.length, file);
    } while (got > 0);
    fclose(file);
    return it;
}

uint32_t compile_file(const bytes *text, const char *name, const char *reading, csn_rule *rule, csn_why *why)
{
    uint32_t number = strcmp(reading, "sent") == 0 ? CSN_SENT : CSN_RECEIVED;
    return csn_compile(text->at, text->length, (const uint8_t *)name, strlen(name), number, rule, why);
}

void odd(const char *what, size_t got, size_t wanted)
{
    odd_count++;
    if (odd_count <= 20)
        fprintf(stderr, "%s: %zu in place of %zu\n", what, got, wanted);
}
