/* Calls on numbers with what they may not be given: null, closed, empty, too long, numbers that nothing has. Each line that it prints is a call
   that answered wrongly. */
#include "mapf_desk.h"
#include <stdio.h>
#include <stdlib.h>

enum { TOO_MANY = 131073 };

static const char MAP[] = "type octile\nheight 1\nwidth 3\nmap\n...\n";
static desk_conflict room[2];
static size_t count;
static uint64_t version;
static uint32_t steps;
static bool answer;

#define IS(what)                                                                                                                                     \
    do {                                                                                                                                             \
        if (!(what))                                                                                                                                 \
            printf("not so: %s\n", #what);                                                                                                           \
    } while (0)

/* No call changes anything at a desk that is closed or null, and none takes a null where it would write. */
static void closed(desk *it) {
    desk_cell cell = {0, 0};
    count = version = steps = 77, answer = true, room[0].kind = 77;
    IS(desk_version(it, &version) == DESK_CLOSED && desk_commit_path(it, 0, &cell, 1, &version) == DESK_CLOSED && version == 77);
    IS(desk_try_path(it, 0, &cell, 1, room, 2, &count) == DESK_CLOSED && desk_conflicts(it, 0, room, 2, &count) == DESK_CLOSED);
    IS(count == 77 && room[0].kind == 77);
    IS(desk_solves(it, 31, &answer) == DESK_CLOSED && answer);
    IS(desk_distance(it, 0, cell, &steps) == DESK_CLOSED && steps == 77);
}

static void nulls(desk *it) {
    desk_cell cell = {0, 0};
    IS(desk_version(it, 0) == DESK_CLOSED && desk_solves(it, 31, 0) == DESK_CLOSED && desk_distance(it, 0, cell, 0) == DESK_CLOSED);
    IS(desk_commit_path(it, 0, 0, 1, &version) == DESK_CLOSED && desk_commit_path(it, 0, &cell, 1, 0) == DESK_CLOSED);
    IS(desk_try_path(it, 0, 0, 1, room, 2, &count) == DESK_CLOSED && desk_try_path(it, 0, &cell, 1, 0, 2, &count) == DESK_CLOSED);
    IS(desk_try_path(it, 0, &cell, 1, room, 2, 0) == DESK_CLOSED && desk_conflicts(it, 0, 0, 1, &count) == DESK_CLOSED);
    IS(desk_conflicts(it, 0, room, 2, 0) == DESK_CLOSED);
}

static void lengths(desk *it) {
    desk_cell *path = calloc(TOO_MANY, sizeof *path);
    count = version = 77, room[0].kind = 77;
    IS(path && desk_commit_path(it, 0, path, TOO_MANY, &version) == DESK_TOO_LONG && version == 77);
    IS(desk_try_path(it, 0, path, TOO_MANY, room, 2, &count) == DESK_TOO_LONG && count == 77);
    IS(desk_commit_path(it, 0, 0, 0, &version) == DESK_EMPTY_PATH && desk_try_path(it, 0, 0, 0, 0, 0, &count) == DESK_EMPTY_PATH);
    path[1].x = 2048;
    IS(desk_commit_path(it, 0, path, 2, &version) == DESK_NO_SUCH_NUMBER && desk_commit_path(it, 65536, path, 1, &version) == DESK_NO_SUCH_NUMBER);
    IS(desk_conflicts(it, 65536, room, 2, &count) == DESK_NO_SUCH_NUMBER && desk_distance(it, 0, path[1], &steps) == DESK_NO_SUCH_NUMBER);
    path[1].x = 2047;
    IS(desk_distance(it, 0, path[1], &steps) == DESK_OUT_OF_MAP && desk_conflicts(it, 65535, room, 2, &count) == DESK_UNKNOWN_AGENT);
    IS(desk_version(it, &version) == DESK_DONE && version == 2 && room[0].kind == 77);
    free(path);
}

/* Two agents rest at one end: a parked conflict, worked by hand, and the room of one entry and of none. */
static void rooms(desk *it) {
    static const desk_cell there[] = {{0, 0}, {1, 0}, {2, 0}};
    desk_conflict *one = malloc(sizeof *one);
    IS(desk_try_path(it, 0, there, 3, 0, 0, &count) == DESK_DONE && count == 2);
    IS(one && desk_try_path(it, 0, there, 3, one, 1, &count) == DESK_DONE && count == 2);
    IS(one->kind == DESK_PARKED && one->time == 2 && one->first == 0 && one->second == 1 && one->cell.x == 2 && one->cell.y == 0 && one->other.x == DESK_NONE);
    IS(desk_conflicts(it, 0, 0, 0, &count) == DESK_DONE && count == 0);
    IS(desk_commit_path(it, 0, there, 3, &version) == DESK_DONE && version == 3);
    IS(desk_conflicts(it, 0, room, 2, &count) == DESK_DONE && count == 2 && room[1].kind == DESK_FOLLOW && room[1].time == 1 && room[1].second == 1);
    IS(desk_solves(it, 1 << DESK_VERTEX, &answer) == DESK_DONE && !answer && desk_solves(it, 1 << DESK_SWAP, &answer) == DESK_DONE && answer);
    free(one);
}

int main(void) {
    desk it = {0};
    closed(0);
    closed(&it);
    IS(!desk_open(&it, desk_string("type hex\n"), desk_nothing(), 0, DESK_STAY, 9, desk_nothing()));
    closed(&it);
    IS(desk_open(&it, desk_string(MAP), desk_nothing(), 0, DESK_STAY, 9, desk_nothing()));
    IS(desk_line(&it, desk_string("agent 0 0,0 2,0")) && desk_line(&it, desk_string("agent 1 2,0 2,0")));
    nulls(&it);
    lengths(&it);
    rooms(&it);
    IS(desk_close(&it));
    closed(&it);
    return 0;
}
