/* Finds paths for the first agents of a scenario, one after the other, against a desk: planner MAP SCEN AGENTS. An agent takes the shortest path
   that keeps away from where the desk said that it meets agents with paths; so it learns until the desk knows no meeting more. */
#include "mapf_desk.h"
#include <stdio.h>
#include <stdlib.h>

enum { SIDE = 64, LAST = 254, MOST = 1024 };

static desk it;
static uint32_t way[SIDE][SIDE];                           /* steps to the goal; DESK_NONE where no way leads there */
static desk_cell goals[SIDE], came[LAST + 2][SIDE][SIDE];
static char taken[LAST + 2][SIDE][SIDE], seen[LAST + 2][SIDE][SIDE], answer[1 << 20];

static const char *ask(const char *line) {
    size_t length = 0;
    if (!desk_line(&it, desk_string(line)) || !desk_answer(&it, answer, sizeof answer - 1, &length) || length >= sizeof answer)
        exit(3);
    answer[length] = 0;
    return answer;
}

/* A shortest path over cells and times that aren't taken, to where the agent can stay; its length, or 0. */
static size_t find(desk_cell start, desk_cell goal, desk_cell *path) {
    static const int right[] = {0, 1, -1, 0, 0}, down[] = {0, 0, 0, 1, -1};
    size_t least = LAST;
    while (least && !taken[least][goal.y][goal.x])
        least--;
    memset(seen, 0, sizeof seen);
    seen[0][start.y][start.x] = 1;
    for (size_t time = 0; time < LAST; time++) {
        if (seen[time][goal.y][goal.x] && (time > least || !least)) {
            path[time] = goal;
            for (size_t at = time; at; at--)
                path[at - 1] = came[at][path[at].y][path[at].x];
            return time + 1;
        }
        for (uint32_t y = 0; y < SIDE; y++)
            for (uint32_t x = 0; x < SIDE; x++)
                for (int move = 0; seen[time][y][x] && move < 5; move++) {
                    uint32_t column = x + right[move], row = y + down[move];
                    if (column < SIDE && row < SIDE && way[row][column] < LAST - time && !taken[time + 1][row][column] && !seen[time + 1][row][column]) {
                        seen[time + 1][row][column] = 1;
                        came[time + 1][row][column] = (desk_cell){x, y};
                    }
                }
    }
    return 0;
}

/* Where the agent mustn't be, by a conflict with one that has a path: whether it is with one. */
static bool learn(uint32_t agent, const desk_conflict *one) {
    bool first = one->first == agent;
    uint32_t other = first ? one->second : one->first, time = one->time;
    if (other >= agent || one->kind == DESK_FOLLOW || one->kind == DESK_CYCLE || one->kind == DESK_EDGE)
        return false;
    desk_cell cell = one->kind == DESK_SWAP && first ? one->other : one->cell;
    bool stays = one->kind != DESK_SWAP && cell.x == goals[other].x && cell.y == goals[other].y;
    for (uint32_t at = one->kind == DESK_SWAP ? time + 1 : time; at < LAST + 2; at = stays ? at + 1 : LAST + 2)
        taken[at][cell.y][cell.x] = 1;
    return true;
}

static bool plan(uint32_t agent) {
    static desk_conflict room[MOST];
    static desk_cell path[LAST + 1];
    char line[32];
    desk_cell start;
    uint64_t version;
    snprintf(line, sizeof line, "plan %u", agent);
    if (sscanf(ask(line), "plan %*u %u,%u %u,%u", &goals[agent].x, &goals[agent].y, &start.x, &start.y) != 4)
        return false;
    memset(taken, 0, sizeof taken);
    for (uint32_t y = 0; y < SIDE; y++)
        for (uint32_t x = 0; x < SIDE; x++)
            if (desk_distance(&it, agent, (desk_cell){x, y}, &way[y][x]) != DESK_DONE)
                way[y][x] = DESK_NONE;
    for (bool learned = true; learned;) {
        size_t length = find(start, goals[agent], path), count;
        if (desk_try_path(&it, agent, path, length, room, MOST, &count) != DESK_DONE)
            return false;
        learned = false;
        for (size_t at = 0; at < count && at < MOST; at++)
            learned |= learn(agent, room + at);
        if (!learned && desk_commit_path(&it, agent, path, length, &version) != DESK_DONE)
            return false;
    }
    return true;
}

static desk_text text_of(const char *name) {
    static char room[2][1 << 20];
    static int used;
    FILE *file = fopen(name, "rb");
    if (!file)
        exit(2);
    desk_text text = {room[used], fread(room[used], 1, sizeof room[used], file)};
    fclose(file);
    used++;
    return text;
}

int main(int count, char **words) {
    uint32_t agents = count > 3 ? strtoul(words[3], 0, 10) : 0;
    bool solved = false;
    if (count != 4 || agents > SIDE || !desk_open(&it, text_of(words[1]), text_of(words[2]), agents, DESK_STAY, 100000, desk_nothing()))
        return 2;
    for (uint32_t agent = 0; agent < agents; agent++)
        if (!plan(agent))
            printf("no path for agent %u\n", agent);
    desk_solves(&it, 1 << DESK_VERTEX | 1 << DESK_SWAP, &solved);
    fputs(ask("solves vertex swap"), stdout);
    desk_close(&it);
    return !solved;
}
