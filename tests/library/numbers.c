/* Makes the calls on numbers that its standard input asks for, and prints what they answer: numbers MAP disappear|stay LIMIT.
   Lines: `line LINE`, `version`, `commit AGENT X Y ..`, `try MOST AGENT X Y ..`, `conflicts MOST AGENT`, `solves KINDS`, `distance AGENT X Y`. */
#include "mapf_desk.h"
#include <stdio.h>
#include <stdlib.h>

enum { MOST = 64, GUARD = 77 };

static desk it;
static desk_conflict room[MOST + 1];

static void put_number(uint32_t number) {
    number == DESK_NONE ? printf(" -") : printf(" %u", number);
}

static void put_entries(desk_status status, size_t count, size_t most) {
    printf("%d", status);
    if (status == DESK_DONE)
        printf(" %zu", count);
    for (size_t at = 0; status == DESK_DONE && at < count && at < most; at++) {
        const desk_conflict *one = room + at;
        const uint32_t numbers[] = {one->kind, one->time, one->first, one->second, one->cell.x, one->cell.y, one->other.x, one->other.y};
        printf(";");
        for (int each = 0; each < 8; each++)
            put_number(numbers[each]);
    }
    for (size_t at = status == DESK_DONE && count < most ? count : status == DESK_DONE ? most : 0; at <= MOST; at++)
        if (room[at].kind != GUARD)
            printf(" more was written");
    printf("\n");
}

static size_t numbers_of(char *words, uint32_t *numbers) {
    size_t count = 0;
    for (char *word = strtok(words, " \n"); word; word = strtok(0, " \n"))
        numbers[count++] = strtoul(word, 0, 10);
    return count;
}

static void obey(char *line) {
    static uint32_t numbers[4096];
    char *words = strchr(line, ' ');
    words = words ? words : line + strlen(line);
    for (int at = 0; at <= MOST; at++)
        room[at].kind = GUARD;
    if (!strncmp(line, "line ", 5)) {
        line[strlen(line) - 1] = 0;
        if (!desk_line(&it, desk_string(line + 5)))
            printf("no answer to %s\n", line);
        return;
    }
    size_t count = numbers_of(words, numbers), told = GUARD;
    uint64_t version = GUARD;
    uint32_t steps = GUARD;
    bool answer = false;
    desk_cell *path = (desk_cell *)(numbers + (line[0] == 't' ? 2 : 1));
    if (line[0] == 'v' || (line[0] == 'c' && line[3] == 'm')) {
        desk_status status = line[0] == 'v' ? desk_version(&it, &version) : desk_commit_path(&it, numbers[0], path, (count - 1) / 2, &version);
        printf("%d %llu\n", status, (unsigned long long)version);
    } else if (line[0] == 't') {
        desk_status status = desk_try_path(&it, numbers[1], path, (count - 2) / 2, room, numbers[0], &told);
        put_entries(status, told, numbers[0]);
    } else if (line[0] == 'c') {
        desk_status status = desk_conflicts(&it, numbers[1], room, numbers[0], &told);
        put_entries(status, told, numbers[0]);
    } else if (line[0] == 's') {
        desk_status status = desk_solves(&it, numbers[0], &answer);
        printf("%d %d\n", status, answer);
    } else {
        desk_status status = desk_distance(&it, numbers[0], (desk_cell){numbers[1], numbers[2]}, &steps);
        printf("%d %u\n", status, steps);
    }
}

int main(int count, char **words) {
    static char map[4096], line[65536];
    FILE *file = count > 3 ? fopen(words[1], "rb") : 0;
    if (!file)
        return 2;
    size_t length = fread(map, 1, sizeof map, file);
    fclose(file);
    if (!desk_open(&it, (desk_text){map, length}, desk_nothing(), 0, strcmp(words[2], "stay") ? DESK_DISAPPEAR : DESK_STAY, atoi(words[3]), desk_nothing()))
        return 2;
    while (fgets(line, sizeof line, stdin))
        obey(line);
    return !desk_close(&it);
}
