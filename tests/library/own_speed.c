/* What a question of one agent's conflicts takes from C beside the same question put to the desk itself: own_speed BLOCKS. Of agents that meet
   0, 1, 8 and 64 others it prints these numbers and, in nanoseconds, the medians of the desk's own call, of the call from C, and of their difference;
   calls of both kinds take turns in blocks. tools/library_speed gives own_put and own_drop to the desk's call, and to the drop of its answer. */
#include "mapf_desk.h"
#include <stdio.h>
#include <stdlib.h>
#include <time.h>

enum { CALLS = 50 };

/* How Rattle's compiler lays these out; an answer whose number of conflicts is another ends the run. */
typedef struct {
    const uint16_t *agents;
    size_t length, room;
} question;

typedef struct {
    uint64_t fault, version;
    const void *conflicts;
    uint64_t count, rest[32];
} answer;

void own_put(answer *, const question *, void *);
void own_drop(void *);

static desk it;
static desk_conflict room[64];

static double now(void) {
    struct timespec time;
    clock_gettime(CLOCK_MONOTONIC, &time);
    return time.tv_sec * 1e9 + time.tv_nsec;
}

static int order(const void *first, const void *second) {
    double one = *(const double *)first, other = *(const double *)second;
    return (one > other) - (one < other);
}

static double median(double *times, int count) {
    qsort(times, count, sizeof *times, order);
    return times[count / 2];
}

static size_t ask_desk(uint16_t agent) {
    answer told;
    question asked = {&agent, 1, 4};
    own_put(&told, &asked, (char *)it.at + 8);
    size_t count = told.count;
    if (told.fault & 255)
        exit(3);
    own_drop(&told.conflicts);
    return count;
}

static size_t ask_c(uint16_t agent) {
    size_t count;
    if (desk_conflicts(&it, agent, room, 64, &count) != DESK_DONE)
        exit(4);
    return count;
}

int main(int count, char **words) {
    static const unsigned met[] = {0, 1, 8, 64};
    size_t (*const ways[])(uint16_t) = {ask_desk, ask_c};
    unsigned first[4], agent = 0;
    int blocks = count == 2 ? atoi(words[1]) : 0;
    double *times[3];
    if (blocks < 1 || !desk_open(&it, desk_string("type octile\nheight 1\nwidth 4\nmap\n....\n"), desk_nothing(), 0, DESK_STAY, 100, desk_nothing()))
        return 1;
    for (int each = 0; each < 3; each++)
        times[each] = malloc(blocks * sizeof(double));
    for (int place = 0; place < 4; place++) {
        first[place] = agent;
        for (unsigned other = 0; other <= met[place]; other++) {
            char line[32];
            snprintf(line, sizeof line, "agent %u %d,0 %d,0", agent++, place, place);
            if (!desk_line(&it, desk_string(line)))
                return 2;
        }
    }
    for (int place = 0; place < 4; place++) {
        for (int block = 0; block < blocks; block++) {
            for (int way = 0; way < 2; way++) {
                double began = now();
                for (int call = 0; call < CALLS; call++)
                    if (ways[way](first[place]) != met[place])
                        return 5;
                times[way][block] = (now() - began) / CALLS;
            }
            times[2][block] = times[1][block] - times[0][block];
        }
        printf("meets %u: %.0f %.0f %.0f\n", met[place], median(times[0], blocks), median(times[1], blocks), median(times[2], blocks));
    }
    return 0;
}
