/* A plan desk for multi-agent path finding inside another program. docs/LIBRARY.md has an example; docs/PROTOCOL.md has the lines of a
   session, docs/FILES.md the texts.

   A program sets a desk to {0} before the first call, doesn't copy it, and gives it to one call at a time, always in one thread; several desks
   may be used side by side. A text is bytes and a length, and needs no zero at its end. These are tested: a desk that is null or closed, for
   which each call answers false or DESK_CLOSED and does nothing, and texts without bytes, which are taken as empty, or where the header says so as not given.
   A library call opens no file, prints nothing, starts no thread and takes no lock. */
#ifndef MAPF_DESK_H
#define MAPF_DESK_H

#include <stdbool.h>
#include <stddef.h>
#include <stdint.h>
#include <string.h>

#ifdef __cplusplus
extern "C" {
#endif

/* Null at a desk that is closed. */
typedef struct {
    void *at;
} desk;

typedef struct {
    const void *bytes;
    size_t length;
} desk_text;

/* Whether agents stay at their goals, or leave a step later. */
typedef enum { DESK_STAY, DESK_DISAPPEAR } desk_mode;

/* A cell: its column and its row. */
typedef struct {
    uint32_t x, y;
} desk_cell;

/* What stands for a number that isn't there. */
#define DESK_NONE UINT32_MAX

typedef enum { DESK_VERTEX, DESK_PARKED, DESK_EDGE, DESK_FOLLOW, DESK_SWAP, DESK_CYCLE } desk_kind;

/* A conflict: its kind, its time in steps, and the agents and the cells in the order of its line. The line of an edge and of a swap has two cells,
   that of a cycle none, but an agent more at least, which `report AGENT` names; where there is no cell, DESK_NONE stands for its numbers. */
typedef struct {
    uint32_t kind, time, first, second;
    desk_cell cell, other;
} desk_conflict;

/* What calls on numbers answer. All but the first leave what they would have told as it was, and the desk too. */
typedef enum {
    DESK_DONE,
    DESK_CLOSED,         /* or a pointer is null that may not be */
    DESK_OUT_OF_MEMORY,
    DESK_NO_SUCH_NUMBER, /* an agent above 65,535, or a column or row above 2,047 */
    DESK_UNKNOWN_AGENT,
    DESK_OUT_OF_MAP,
    DESK_EMPTY_PATH,
    DESK_NOT_FROM_START,
    DESK_NOT_A_STEP,
    DESK_TOO_LONG,
    DESK_JOURNAL_FULL,
    DESK_NO_WAY,
    DESK_REFUSED         /* for another reason of the desk, which none of these calls gives it */
} desk_status;

/* How solvers write paths: the first line tells it, or a line for each time, for each agent, of a session, an object of JSON, a
   schedule, or rows of moves, where up is y - 1, or y + 1 if they are flipped. */
typedef enum {
    DESK_ANY_FORM, DESK_BY_TIME, DESK_BY_AGENT, DESK_BY_SESSION, DESK_BY_JSON, DESK_BY_SCHEDULE, DESK_BY_MOVES, DESK_BY_FLIPPED_MOVES
} desk_form;

/* What is listed of a report: all, no conflicts of kinds that don't count, or only how many there are. */
typedef enum { DESK_ALL, DESK_ONLY, DESK_QUIET } desk_listing;

/* Whether paths solve their problem, or there is no verdict. */
typedef enum { DESK_SOLVED, DESK_UNSOLVED, DESK_FAULT } desk_verdict;

/* What the library exports. The calls below test what can be null first. */
bool mapf_desk_open(desk *it, const uint8_t *map, size_t map_length, const uint8_t *scen, size_t scen_length, bool has_scen, uint32_t agents,
                    bool disappears, uint32_t limit, const uint8_t *journal, size_t journal_length, bool has_journal);
bool mapf_desk_line(desk *it, const uint8_t *line, size_t length);
bool mapf_desk_journal(desk *it);
bool mapf_desk_answer(desk *it, uint8_t *room, size_t most, size_t *length);
bool mapf_desk_close(desk *it);
uint32_t mapf_desk_version(desk *it, uint64_t *version);
uint32_t mapf_desk_commit_path(desk *it, uint32_t agent, const desk_cell *path, size_t length, uint64_t *version);
uint32_t mapf_desk_try_path(desk *it, uint32_t agent, const desk_cell *path, size_t length, desk_conflict *room, size_t most, size_t *count);
uint32_t mapf_desk_conflicts(desk *it, uint32_t agent, desk_conflict *room, size_t most, size_t *count);
uint32_t mapf_desk_solves(desk *it, bool vertex, bool edge, bool follow, bool swap, bool cycle, bool *answer);
uint32_t mapf_desk_distance(desk *it, uint32_t agent, uint32_t x, uint32_t y, uint32_t *steps);
uint32_t mapf_desk_check(const uint8_t *map, size_t map_length, const uint8_t *scen, size_t scen_length, bool has_scen, uint32_t agents,
                         const uint8_t *paths, size_t paths_length, uint32_t form, bool vertex, bool edge, bool follow, bool swap, bool cycle,
                         bool disappears, bool quiet, bool only, uint8_t *room, size_t most, size_t *length);

#ifdef __cplusplus
}
#endif

/* A text of a string that ends with a zero, and one that isn't given. */
static inline desk_text desk_string(const char *it) {
    desk_text text = {it, it ? strlen(it) : 0};
    return text;
}

static inline desk_text desk_nothing(void) {
    desk_text text = {0, 0};
    return text;
}

static inline const uint8_t *desk_bytes(desk_text text) {
    return (const uint8_t *)(text.bytes ? text.bytes : "");
}

static inline size_t desk_length(desk_text text) {
    return text.bytes ? text.length : 0;
}

/* Opens a desk of a map's text, with agents 0 to `agents` - 1 of the first tasks of a scenario, and commits the entries of a journal; a scenario and
   a journal without bytes are not given. `limit` is the most entries of its journal, 1 to 1,000,000. What was open is closed first. Where
   it answers false the fault's text is the answer, as `map: not octile`, `limit` or `out of memory`; or there was no memory even for that, and the
   desk is closed. */
static inline bool desk_open(desk *it, desk_text map, desk_text scen, uint32_t agents, desk_mode mode, uint32_t limit, desk_text journal) {
    return it && mapf_desk_open(it, desk_bytes(map), desk_length(map), desk_bytes(scen), desk_length(scen), scen.bytes, agents,
                                mode == DESK_DISAPPEAR, limit, desk_bytes(journal), desk_length(journal), journal.bytes);
}

/* The session's next line, of version 2, without its line feed; what lines gather is kept from call to call. False where no desk is open, or where
   memory ran out for the answer, of which there is a part then; the line had its effect. */
static inline bool desk_line(desk *it, desk_text line) {
    return it && mapf_desk_line(it, desk_bytes(line), desk_length(line));
}

/* Makes the text of the desk's journal the answer, for a file or for desk_open. False as of desk_line. */
static inline bool desk_journal(desk *it) {
    return it && mapf_desk_journal(it);
}

/* Copies the last answer to `room`, as much of it as `most` bytes hold, and gives the length of the whole; `room` may be null where `most` is
   0. False where the desk is closed, or a pointer null that may not be. */
static inline bool desk_answer(desk *it, void *room, size_t most, size_t *length) {
    uint8_t none;
    return it && length && (room || !most) && mapf_desk_answer(it, room ? (uint8_t *)room : &none, most, length);
}

/* How many commits the desk has accepted. */
static inline desk_status desk_version(desk *it, uint64_t *version) {
    return it && version ? (desk_status)mapf_desk_version(it, version) : DESK_CLOSED;
}

/* Commits a path of an agent, `length` cells from its start, on the desk's version, and gives the new one. No line is answered by this, and what
   lines gather stays. */
static inline desk_status desk_commit_path(desk *it, uint32_t agent, const desk_cell *path, size_t length, uint64_t *version) {
    desk_cell none;
    return it && version && (path || !length) ? (desk_status)mapf_desk_commit_path(it, agent, path ? path : &none, length, version) : DESK_CLOSED;
}

/* Gives the number of the conflicts that the agent would have after that commit, and copies the first of them to `room`, at most `most`; `room` may
   be null where `most` is 0. The desk stays as it is. */
static inline desk_status desk_try_path(desk *it, uint32_t agent, const desk_cell *path, size_t length, desk_conflict *room, size_t most,
                                        size_t *count) {
    desk_cell none;
    desk_conflict nothing;
    if (!it || !count || (!path && length) || (!room && most))
        return DESK_CLOSED;
    return (desk_status)mapf_desk_try_path(it, agent, path ? path : &none, length, room ? room : &nothing, most, count);
}

/* The same of the conflicts that the agent has, in the order of the report. */
static inline desk_status desk_conflicts(desk *it, uint32_t agent, desk_conflict *room, size_t most, size_t *count) {
    desk_conflict nothing;
    return it && count && (room || !most) ? (desk_status)mapf_desk_conflicts(it, agent, room ? room : &nothing, most, count) : DESK_CLOSED;
}

/* Whether the plans solve by kinds of conflicts: bit k of `kinds` is that of the kind k; DESK_PARKED goes with DESK_VERTEX. */
static inline desk_status desk_solves(desk *it, uint32_t kinds, bool *answer) {
    bool told = false;
    if (!it || !answer)
        return DESK_CLOSED;
    desk_status status = (desk_status)mapf_desk_solves(it, kinds & 3, kinds >> DESK_EDGE & 1, kinds >> DESK_FOLLOW & 1, kinds >> DESK_SWAP & 1,
                                                       kinds >> DESK_CYCLE & 1, &told);
    if (status == DESK_DONE)
        *answer = told;
    return status;
}

/* The distance in steps of a cell to the agent's goal on the present map; DESK_NO_WAY where there is none. */
static inline desk_status desk_distance(desk *it, uint32_t agent, desk_cell cell, uint32_t *steps) {
    return it && steps ? (desk_status)mapf_desk_distance(it, agent, cell.x, cell.y, steps) : DESK_CLOSED;
}

/* Gives back all memory. False where the desk is closed already. */
static inline bool desk_close(desk *it) {
    return it && mapf_desk_close(it);
}

/* Gives a verdict on the paths that a solver wrote, by kinds of conflicts as desk_solves: the status and the text of the program's `check`
   (docs/CLI.md), or DESK_FAULT and the fault's text. It needs no desk. A scenario without bytes is not given; then the agents are those of the
   paths, whatever their number. With one there are as many as its first `agents` tasks, or with DESK_NONE as many as paths. The text is copied to
   `room`, which is none of the texts, as by desk_answer. It is empty where there was no memory for it; DESK_FAULT, and nothing else, where a
   pointer is null that may not be. */
static inline desk_verdict desk_check(desk_text map, desk_text scen, uint32_t agents, desk_text paths, desk_form form, uint32_t kinds, desk_mode mode,
                                      desk_listing listing, void *room, size_t most, size_t *length) {
    uint8_t none;
    if (!length || (!room && most))
        return DESK_FAULT;
    return (desk_verdict)mapf_desk_check(desk_bytes(map), desk_length(map), desk_bytes(scen), desk_length(scen), scen.bytes, agents, desk_bytes(paths),
                                         desk_length(paths), form, kinds & 3, kinds >> DESK_EDGE & 1, kinds >> DESK_FOLLOW & 1, kinds >> DESK_SWAP & 1,
                                         kinds >> DESK_CYCLE & 1, mode == DESK_DISAPPEAR, listing == DESK_QUIET, listing == DESK_ONLY,
                                         room ? (uint8_t *)room : &none, most, length);
}

#endif
