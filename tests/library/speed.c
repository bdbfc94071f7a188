/* What calls take from C, by the library and through a pipe to the program: speed PROGRAM MAP LINES AGENT. The lines make a fleet; the calls are
   of one agent of it. For each call it prints its name and two numbers, nanoseconds of processor time, those of the program included. */
#include "mapf_desk.h"
#include <stdio.h>
#include <stdlib.h>
#include <time.h>
#include <unistd.h>

enum { MOST = 1 << 16 };

static desk it;
static desk_conflict room[64];
static desk_cell path[2][MOST];
static size_t lengths[2];
static char lines[2][MOST], buffer[1 << 23];
static FILE *to, *from;
static pid_t child;
static uint32_t agent;

static double now(void) {
    struct timespec self;
    char name[64];
    unsigned long long run = 0;
    clock_gettime(CLOCK_PROCESS_CPUTIME_ID, &self);
    snprintf(name, sizeof name, "/proc/%d/schedstat", (int)child);
    FILE *file = fopen(name, "r");
    if (!file || fscanf(file, "%llu", &run) != 1)
        exit(4);
    fclose(file);
    return self.tv_sec * 1e9 + self.tv_nsec + run;
}

/* Sends lines, and reads answers up to a line that begins with the word. */
static void through_pipe(const char *text, const char *word) {
    static char answer[1 << 20];
    fputs(text, to);
    fflush(to);
    while (fgets(answer, sizeof answer, from))
        if (!strncmp(answer, word, strlen(word)))
            return;
    exit(5);
}

static void starts(char **words) {
    int in[2], out[2];
    if (pipe(in) || pipe(out))
        exit(6);
    child = fork();
    if (!child) {
        dup2(in[0], 0), dup2(out[1], 1);
        close(in[0]), close(in[1]), close(out[0]), close(out[1]);
        execl(words[1], words[1], "serve", "--lines", "2", "--map", words[2], (char *)0);
        _exit(127);
    }
    close(in[0]), close(out[1]);
    to = fdopen(in[1], "w"), from = fdopen(out[0], "r");
}

static desk_text read_all(const char *name) {
    FILE *file = fopen(name, "rb");
    desk_text text = {buffer, file ? fread(buffer, 1, sizeof buffer, file) : 0};
    return text;
}

/* The agent's path, and one that waits a step first. */
static void make_paths(uint32_t number) {
    char line[32], *word;
    size_t length;
    snprintf(line, sizeof line, "plan %u", agent = number);
    if (!desk_line(&it, desk_string(line)) || !desk_answer(&it, buffer, sizeof buffer - 1, &length))
        exit(7);
    buffer[length] = 0;
    strtok(buffer, " "), strtok(0, " "), strtok(0, " ");
    for (word = strtok(0, " \n"); word; word = strtok(0, " \n"), lengths[0]++)
        sscanf(word, "%u,%u", &path[0][lengths[0]].x, &path[0][lengths[0]].y);
    path[1][0] = path[0][0];
    memcpy(path[1] + 1, path[0], lengths[0] * sizeof **path);
    lengths[1] = lengths[0] + 1;
    for (int each = 0; each < 2; each++) {
        char *end = lines[each] + sprintf(lines[each], "path %u", agent);
        for (size_t at = 0; at < lengths[each]; at++)
            end += sprintf(end, " %u,%u", path[each][at].x, path[each][at].y);
        sprintf(end, "\n");
    }
}

static void call(int kind, int turn) {
    uint64_t version;
    size_t count;
    desk_status status = kind == 0 ? desk_version(&it, &version) : kind == 1 ? desk_conflicts(&it, agent, room, 64, &count)
        : kind == 2 ? desk_try_path(&it, agent, path[turn], lengths[turn], room, 64, &count) : desk_commit_path(&it, agent, path[turn], lengths[turn], &version);
    if (status != DESK_DONE)
        exit(8);
}

static void ask(int kind, int turn) {
    static char text[MOST + 64];
    if (kind == 1)
        sprintf(text, "report %u\n", agent);
    else
        sprintf(text, kind == 2 ? "begin\n%stry\ncancel\n" : "%s", kind == 0 ? "version\n" : lines[turn]);
    through_pipe(text, kind == 0 || kind == 3 ? "version " : kind == 1 ? "end" : "cancelled");
}

int main(int count, char **words) {
    static const char *const names[] = {"version", "conflicts", "try_path", "commit_path"};
    static const int turns[] = {200000, 20000, 10, 4000};
    desk_text map = read_all(words[2]);
    if (count != 5 || !desk_open(&it, map, desk_nothing(), 0, DESK_STAY, 1000000, desk_nothing()))
        return 2;
    starts(words);
    read_all(words[3]);
    for (char *line = strtok(buffer, "\n"); line; line = strtok(0, "\n")) {
        static char text[MOST];
        snprintf(text, sizeof text, "%s\n", line);
        through_pipe(text, "version ");
        if (!desk_line(&it, desk_string(line)))
            return 3;
    }
    make_paths(strtoul(words[4], 0, 10));
    for (int kind = 0; kind < 4; kind++) {
        void (*const ways[])(int, int) = {call, ask};
        double least[2] = {1e18, 1e18};
        for (int run = 0; run < 6; run++) {
            double began = now();
            for (int turn = 0; turn < turns[kind]; turn++)
                ways[run % 2](kind, turn % 2);
            double took = (now() - began) / turns[kind];
            least[run % 2] = took < least[run % 2] ? took : least[run % 2];
        }
        printf("%s %.0f %.0f\n", names[kind], least[0], least[1]);
    }
    fclose(to);
    return 0;
}
