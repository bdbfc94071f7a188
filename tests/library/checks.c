/* Checks as `mapf_desk check` does, by the library: checks MAP SCEN AGENTS PATHS FORM KINDS MODE LISTING MOST, files and numbers, - for none. Prints
   the status, the length of the text, and of that as much as MOST bytes hold. */
#include "mapf_desk.h"
#include <stdio.h>
#include <stdlib.h>

static desk_text text_of(const char *name) {
    desk_text text = {0, 0};
    FILE *file = strcmp(name, "-") ? fopen(name, "rb") : 0;
    char *bytes = file ? malloc(1 << 20) : 0;
    if (bytes) {
        text.length = fread(bytes, 1, 1 << 20, file);
        text.bytes = bytes;
    }
    if (file)
        fclose(file);
    return text;
}

int main(int count, char **words) {
    if (count != 10)
        return 2;
    uint32_t numbers[10] = {0};
    for (int at = 1; at < 10; at++)
        numbers[at] = strcmp(words[at], "-") ? strtoul(words[at], 0, 10) : DESK_NONE;
    desk_text map = text_of(words[1]), scen = text_of(words[2]), paths = text_of(words[4]);
    size_t most = numbers[9], length = 77;
    char *room = most ? malloc(most) : 0;
    if (most && !room)
        return 2;
    desk_verdict verdict = desk_check(map, scen, numbers[3], paths, (desk_form)numbers[5], numbers[6], (desk_mode)numbers[7], (desk_listing)numbers[8],
                                      room, most, &length);
    printf("%d %zu\n", verdict, length);
    if (most)
        fwrite(room, 1, length < most ? length : most, stdout);
    free(room);
    free((void *)map.bytes);
    free((void *)scen.bytes);
    free((void *)paths.bytes);
    return 0;
}
