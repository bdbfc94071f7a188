/* Serves as `mapf_desk serve --lines 2` does, by the library: lines.c's program takes the map's file, and answers its standard input. */
#include "mapf_desk.h"
#include <stdio.h>
#include <stdlib.h>

static char *held(FILE *file, size_t *length) {
    size_t most = 1 << 20;
    char *bytes = malloc(most);
    for (*length = 0; bytes && (*length += fread(bytes + *length, 1, most - *length, file)) == most; bytes = realloc(bytes, most *= 2))
        ;
    return bytes;
}

static int put_answer(desk *it) {
    size_t length;
    if (!desk_answer(it, 0, 0, &length))
        return 1;
    char *room = malloc(length + 1);
    if (!room || !desk_answer(it, room, length, &length))
        return 1;
    fwrite(room, 1, length, stdout);
    free(room);
    return 0;
}

int main(int count, char **words) {
    desk it = {0};
    size_t map_length, length;
    FILE *file = count > 1 ? fopen(words[1], "rb") : 0;
    if (!file)
        return 2;
    char *map = held(file, &map_length), *lines = held(stdin, &length);
    fclose(file);
    if (!map || !lines || !desk_open(&it, (desk_text){map, map_length}, desk_nothing(), 0, DESK_STAY, 100000, desk_nothing()))
        return 2;
    for (char *at = lines, *end = lines + length; at < end;) {
        char *next = memchr(at, '\n', end - at);
        size_t size = (next ? next : end) - at;
        if (!desk_line(&it, (desk_text){at, size}) || put_answer(&it))
            return 1;
        at += size + 1;
    }
    if (count > 2 && (!desk_journal(&it) || put_answer(&it)))
        return 1;
    desk_close(&it);
    free(map);
    free(lines);
    return 0;
}
