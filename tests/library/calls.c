/* Calls with what they may not be given, and many desks. Each line that it prints is a call that answered wrongly; the last one tells the
   memory of the process, in pages, after some desks and after many more. */
#include "mapf_desk.h"
#include <stdio.h>
#include <stdlib.h>

static const char MAP[] = "type octile\nheight 1\nwidth 3\nmap\n...\n";
static char room[4096];

#define IS(what)                                                                                                                                     \
    do {                                                                                                                                             \
        if (!(what))                                                                                                                                 \
            printf("not so: %s\n", #what);                                                                                                           \
    } while (0)

static int answers(desk *it, const char *wanted) {
    size_t length = 77;
    return desk_answer(it, room, sizeof room, &length) && length == strlen(wanted) && !memcmp(room, wanted, length);
}

static bool opens(desk *it, const char *map, const char *scen, uint32_t agents, uint32_t limit, const char *journal) {
    return desk_open(it, desk_string(map), desk_string(scen), agents, DESK_STAY, limit, desk_string(journal));
}

static int is_closed(desk *it) {
    size_t length = 77;
    memset(room, 'x', sizeof room);
    return !desk_line(it, desk_string("version")) && !desk_journal(it) && !desk_answer(it, room, sizeof room, &length) && length == 77 && room[0] == 'x' &&
           !desk_close(it);
}

static void tries_faults(void) {
    desk it = {0};
    IS(is_closed(&it));
    IS(is_closed(0));
    IS(!opens(0, MAP, 0, 0, 9, 0));
    IS(!opens(&it, MAP, 0, 0, 0, 0) && answers(&it, "limit"));
    IS(!opens(&it, MAP, 0, 0, 1000001, 0) && answers(&it, "limit"));
    IS(!desk_line(&it, desk_string("version")) && answers(&it, "limit"));
    IS(!desk_journal(&it) && answers(&it, "limit"));
    IS(!opens(&it, "type hex\n", 0, 0, 9, 0) && answers(&it, "map: not octile"));
    IS(!opens(&it, 0, 0, 0, 9, 0) && answers(&it, "map: not octile"));
    IS(!opens(&it, MAP, "version 2\n", 0, 9, 0) && answers(&it, "scen: bad version"));
    IS(!opens(&it, MAP, 0, 0, 9, "journal 9\n") && answers(&it, "journal: bad line 1"));
    IS(desk_close(&it) && is_closed(&it));
}

static void tries_answers(void) {
    desk it = {0};
    size_t length;
    IS(opens(&it, MAP, 0, 0, 1, 0) && answers(&it, ""));
    IS(desk_line(&it, desk_nothing()) && answers(&it, ""));
    IS(desk_line(&it, desk_string("agent 0 0,0 2,0")) && answers(&it, "version 1\n"));
    IS(!desk_answer(&it, 0, 1, &length) && !desk_answer(&it, room, 1, 0));
    memset(room, 'x', sizeof room);
    IS(desk_answer(&it, room, 7, &length) && length == 10 && !memcmp(room, "versionx", 8));
    IS(desk_answer(&it, 0, 0, &length) && length == 10);
    IS(desk_line(&it, desk_string("drop 0")) && answers(&it, "refused journal-full 1\n"));
    IS(desk_line(&it, desk_string("plan 0")) && answers(&it, "plan 0 2,0 0,0\n"));
    IS(desk_line(&it, (desk_text){"ver\0sion\n\xff", 10}) && answers(&it, "bad 5 word\n"));
    IS(desk_journal(&it) && answers(&it, "journal 2\nmode stay\nentry 0 0 0 1\nagent 0 0,0 2,0\nend 1\n"));
    IS(opens(&it, MAP, 0, 0, 9, 0) && answers(&it, ""));
    IS(desk_line(&it, desk_string("version")) && answers(&it, "version 0\n"));
    IS(!opens(&it, "", 0, 0, 9, 0) && !desk_line(&it, desk_string("version")));
    IS(desk_close(&it) && is_closed(&it));
}

static desk_verdict checks(const char *map, const char *paths, void *to, size_t most, size_t *length) {
    return desk_check(desk_string(map), desk_nothing(), DESK_NONE, desk_string(paths), DESK_ANY_FORM, 1 << DESK_VERTEX, DESK_STAY, DESK_ONLY, to, most, length);
}

static void tries_checks(void) {
    size_t length = 77;
    memset(room, 'x', sizeof room);
    IS(checks(MAP, "path 0 0,0\n", 0, 9, &length) == DESK_FAULT && checks(MAP, "path 0 0,0\n", room, 9, 0) == DESK_FAULT && length == 77 && room[0] == 'x');
    IS(checks(MAP, "path 0 0,0\n", 0, 0, &length) == DESK_SOLVED && length > 77);
    IS(checks(MAP, "path 0 0,0\n", room, 7, &length) == DESK_SOLVED && length > 77 && !memcmp(room, "versionx", 8));
    IS(checks(0, "path 0 0,0\n", room, sizeof room, &length) == DESK_FAULT && length == 15 && !memcmp(room, "map: not octile", 15));
    IS(checks(MAP, 0, room, sizeof room, &length) == DESK_UNSOLVED && length == 19 && !memcmp(room, "no paths\nsolves no\n", 19));
}

static long pages(void) {
    long all = 0, held = 0;
    FILE *file = fopen("/proc/self/statm", "r");
    if (file && fscanf(file, "%ld %ld", &all, &held) != 2)
        held = -1;
    if (file)
        fclose(file);
    return held;
}

static void opens_many(int count) {
    desk it = {0};
    for (int at = 0; at < count; at++) {
        IS(opens(&it, MAP, 0, 0, 9, 0) && desk_line(&it, desk_string("agent 0 0,0 2,0")) && desk_line(&it, desk_string("report")));
        IS(!opens(&it, at % 2 ? "type hex\n" : MAP, 0, 0, 0, 0));
        if (at % 3)
            IS(desk_close(&it));
    }
    desk_close(&it);
}

int main(int count, char **words) {
    tries_faults();
    tries_answers();
    tries_checks();
    opens_many(500);
    long some = pages();
    opens_many(count > 1 ? atoi(words[1]) : 10000);
    printf("pages %ld\n", pages() - some);
    return 0;
}
