/* What the tests of libfleet share: whole files, and the line that the program prints for a refusal. */
#ifndef LIBRARY_H
#define LIBRARY_H

#include "fleet.h"
#include <stdarg.h>
#include <stdio.h>
#include <stdlib.h>
#include <string.h>

/* Bytes of a length. */
struct bytes {
    uint8_t *at;
    size_t length;
};

/* The names of a refusal's line: of itself, and of its fields. */
struct names {
    const char *name;
    const char *fields[2];
};

static const char *const part_names[] = {
    "", "memory", "map", "scen", "text", "check", "search", "compile", "load", "verify", "run"
};

static const struct names line_names[][12] = {
    [FLEET_MAP] = {
        [2] = {"Header", {"line"}}, [3] = {"Size"}, [4] = {"RowCount"}, [5] = {"RowLength", {"row"}},
        [6] = {"Glyph", {"row", "column"}}, [7] = {"Trailing"}},
    [FLEET_SCEN] = {
        [2] = {"Version"}, [3] = {"Fields", {"line"}}, [4] = {"Number", {"line", "field"}}, [5] = {"OtherMap", {"line"}},
        [6] = {"Blocked", {"line"}}, [7] = {"SharedStart", {"line"}}, [8] = {"SharedGoal", {"line"}},
        [9] = {"NoAgents"}, [10] = {"TooMany"}, [11] = {"Fewer"}},
    [FLEET_TEXT] = {[2] = {"Form", {"line"}}, [3] = {"Length", {"line"}}, [4] = {"AgentCount"}},
    [FLEET_CHECK] = {
        [2] = {"Agents"}, [3] = {"Start", {"agent"}}, [4] = {"Goal", {"agent"}}, [5] = {"Step", {"agent", "time"}}},
    [FLEET_SEARCH] = {[2] = {"NoPath", {"agent"}}},
    [FLEET_COMPILE] = {[2] = {"TooLong"}},
    [FLEET_LOAD] = {
        [2] = {"Magic"}, [3] = {"Truncated"}, [4] = {"AgentCount"}, [5] = {"Total"}, [6] = {"Opcode", {"at"}},
        [7] = {"AwaitAgent", {"at"}}, [8] = {"AwaitOrder", {"at"}}, [9] = {"AwaitCount", {"at"}}, [10] = {"Trailing", {"at"}}},
    [FLEET_VERIFY] = {
        [2] = {"OtherFleet"}, [3] = {"Start", {"agent"}}, [4] = {"Goal", {"agent"}}, [5] = {"Step", {"agent", "action"}},
        [6] = {"AwaitRange", {"agent", "action"}}},
    [FLEET_RUN] = {[2] = {"Source", {"tick"}}, [3] = {"Hold", {"line"}}, [4] = {"Write"}, [5] = {"HoldLimit"}},
};

/* Adds to a line. */
static void add(char *line, size_t room, const char *form, ...)
{
    size_t used = strlen(line);
    va_list rest;
    va_start(rest, form);
    vsnprintf(line + used, room - used, form, rest);
    va_end(rest);
}

/* A conflict's line, but for its number. */
static void conflict_line(char *line, size_t room, const uint64_t *at)
{
    static const char *const kinds[] = {"Vertex", "Swapping", "Cycle"};
    unsigned long long time = at[1], i = at[2], j = at[3];
    add(line, room, " Conflict %s time %llu", kinds[at[0]], time);
    if (at[0] == FLEET_CYCLE)
        add(line, room, " least %llu", i);
    else
        add(line, room, " i %llu j %llu", i, j);
}

/* The line that the program prints for the refusal, without its end; of a ring the first three actions. */
static inline void fault_line(char *line, size_t room, const struct fleet_fault *fault)
{
    const uint64_t *at = fault->fields;
    line[0] = 0;
    add(line, room, "%s", part_names[fault->part]);
    if (fault->part == FLEET_MEMORY)
        return;
    add(line, room, " %u", fault->number);
    if (fault->part == FLEET_CHECK && fault->number == 6) {
        conflict_line(line, room, at);
    } else if (fault->part == FLEET_VERIFY && fault->number == 7) {
        add(line, room, " Cyclic");
        for (uint64_t i = 0; i < fault->count && i < 6; i += 2)
            add(line, room, " %llu:%llu", (unsigned long long)at[i], (unsigned long long)at[i + 1]);
    } else if (fault->part == FLEET_VERIFY && fault->number == 8) {
        add(line, room, " Unordered cell %llu,%llu first %llu:%llu second %llu:%llu",
            (unsigned long long)at[0], (unsigned long long)at[1], (unsigned long long)at[2],
            (unsigned long long)at[3], (unsigned long long)at[4], (unsigned long long)at[5]);
    } else {
        const struct names *names = &line_names[fault->part][fault->number];
        add(line, room, " %s", names->name);
        for (int i = 0; i < 2 && names->fields[i]; i++)
            add(line, room, " %s %llu", names->fields[i], (unsigned long long)at[i]);
    }
}

/* A whole file. */
static struct bytes read_file(const char *name)
{
    struct bytes it = {NULL, 0};
    FILE *file = fopen(name, "rb");
    size_t got, room = 0;
    if (!file) {
        perror(name);
        exit(2);
    }
    do {
        if (it.length == room)
            it.at = realloc(it.at, room = 2 * room + 4096);
        got = fread(it.at + it.length, 1, room - it.length, file);
        it.length += got;
    } while (got);
    fclose(file);
    return it;
}

#endif
