/*
 * Plans of robots on a grid, judged, compiled, verified, thinned, planned and rehearsed: the calls of `fleet` that need
 * no state, proved in Rattle. Link with libfleet.a or libfleet.so, and with nothing else but the C library.
 *
 * Texts and bytes. Maps (.map), scenarios (.scen), plans, programs and holds are those of docs/FORMATS.md, as they lie
 * in a file: a pointer and a length in bytes. Nothing has to end with a zero. A length of 0 may go with a null pointer.
 *
 * Ownership. A call reads what it is given while it runs, and keeps nothing after it: every block that it takes by
 * malloc it gives back by free before it returns. What a call writes (`out`, `length`, `fault`, numbers) belongs to the
 * caller, and overlaps nothing else that the call is given. Those that are not buffers are never null.
 *
 * Lengths. An answer of bytes is put at the front of `out`, which has room for `room` of them, and `*length` tells how
 * many they are. If they are more than `room` the status is FLEET_TOO_SMALL, nothing is written to `out`, and `*length`
 * tells what is needed: a first call with a null `out` and a room of 0 asks for the length.
 *
 * Statuses. What is not answered is as it was before the call: `fault` where the call answers, and `out`, `*length` and
 * the numbers where it refuses or fails. No call ends the process, writes to a stream or opens a file.
 *
 * Threads. Calls share nothing, so that any number may run at once on data of their own. They are not made from a
 * signal handler, nor from the forked child of a process with threads.
 *
 * Stack. No call needs as much as 64 KB.
 *
 * Memory. malloc, realloc and free are those of the program; they have to be of one allocator, and to align a block to
 * each power of two up to 16 that divides its size. If a growth is refused the call fails with the refusal `memory`.
 */
#ifndef FLEET_H
#define FLEET_H

#include <stddef.h>
#include <stdint.h>

#ifdef __cplusplus
extern "C" {
#endif

/* What a call answers. */
enum fleet_status {
    FLEET_DONE = 0,      /* answered */
    FLEET_REFUSED = 1,   /* something is wrong with what was given: `fault` says what */
    FLEET_TOO_SMALL = 2, /* the answer needs more room: `*length` says how much */
    FLEET_FAILED = 3,    /* memory ran out: `fault` is that of FLEET_MEMORY */
    FLEET_STUCK = 4      /* answered: a rehearsal that ends with agents that wait for ever */
};

/* The part of the work that refused, in the order in which they judge. */
enum fleet_part {
    FLEET_MEMORY = 1,
    FLEET_MAP = 2,
    FLEET_SCEN = 3,
    FLEET_TEXT = 4,    /* the plan's text */
    FLEET_CHECK = 5,   /* the plan */
    FLEET_SEARCH = 6,  /* the planner */
    FLEET_COMPILE = 7,
    FLEET_LOAD = 8,    /* the bytes of a program */
    FLEET_VERIFY = 9,  /* the program */
    FLEET_RUN = 10     /* the rehearsal */
};

/* The kinds of conflict of `check 6`, which are its first field. */
enum fleet_conflict {
    FLEET_VERTEX = 0,   /* then the time and two agents */
    FLEET_SWAPPING = 1, /* then the time and two agents */
    FLEET_CYCLE = 2     /* then the time and the least agent of the ring */
};

/*
 * The first fault, as docs/REFUSALS.md has it: the part, the number, and the numbers of its line from left to right
 * (of `5,2` and of `1:4` both). `count` says how many the line has, and fields after these are 0. Only `verify 7`, a
 * ring of actions with two numbers for each, can have more than the six that have room. Want of memory has number 1.
 */
struct fleet_fault {
    uint32_t part;
    uint32_t number;
    uint64_t count;
    uint64_t fields[6];
};

/* A plan that is free of conflict: its agents, and the steps by which all of them have arrived. */
struct fleet_checked {
    uint32_t agents;
    uint32_t steps;
};

/* A program that is accepted: its agents, its moves, its awaits, and the actions of its longest chain of needs. */
struct fleet_accepted {
    uint32_t agents;
    uint32_t moves;
    uint32_t awaits;
    uint32_t chain;
};

/* In each call `agents` says how many of the scenario's agents are taken, from its first; 0 takes all. */

/* Judges a plan: free of vertex, swapping and cycle conflicts, from the starts to the goals, over passable cells. */
uint32_t fleet_check(const uint8_t *map, size_t map_length,
                     const uint8_t *scen, size_t scen_length, uint16_t agents,
                     const uint8_t *plan, size_t plan_length,
                     struct fleet_checked *checked, struct fleet_fault *fault);

/* Which leavings of a cell the action that enters it awaits. */
enum fleet_deps {
    FLEET_DEPS_LAST = 0, /* that of the latest earlier visit alone */
    FLEET_DEPS_ALL = 1   /* the last one of each other agent that left the cell before; so does any other number */
};

/*
 * Compiles a plan, if it is free of conflict: `out` gets the bytes of its program, which is accepted. Each agent stays
 * on its goal for `dwell` actions at the end.
 */
uint32_t fleet_compile(const uint8_t *map, size_t map_length,
                       const uint8_t *scen, size_t scen_length, uint16_t agents,
                       const uint8_t *plan, size_t plan_length,
                       uint8_t deps, uint32_t dwell,
                       uint8_t *out, size_t room, size_t *length, struct fleet_fault *fault);

/*
 * Verifies a program: whoever is held, for as long as it may be, no two agents come onto one cell, and all arrive. Of
 * the programs with the scenario's agents, starts and goals it accepts exactly those that, whoever is held, stay on
 * passable cells, have no conflict and arrive.
 */
uint32_t fleet_verify(const uint8_t *map, size_t map_length,
                      const uint8_t *scen, size_t scen_length, uint16_t agents,
                      const uint8_t *program, size_t program_length,
                      struct fleet_accepted *accepted, struct fleet_fault *fault);

/*
 * Thins a program, if it is accepted: `out` gets the bytes of it without the awaits that others imply. What is left
 * runs as the program does, whoever is held.
 */
uint32_t fleet_thin(const uint8_t *map, size_t map_length,
                    const uint8_t *scen, size_t scen_length, uint16_t agents,
                    const uint8_t *program, size_t program_length,
                    uint8_t *out, size_t room, size_t *length, struct fleet_fault *fault);

/*
 * Plans agent by agent, each on an earliest path past those before it that arrives within `horizon` steps, in up to
 * `tries` orders of the agents, or in one where that is 0: `out` gets the text of the first plan that is found.
 */
uint32_t fleet_plan(const uint8_t *map, size_t map_length,
                    const uint8_t *scen, size_t scen_length, uint16_t agents,
                    uint16_t horizon, uint32_t tries,
                    uint8_t *out, size_t room, size_t *length, struct fleet_fault *fault);

/*
 * Rehearses a program, accepted or not, tick by tick under the holds (none: null and 0): `out` gets the text of the
 * run, whose last line is `finished` (status FLEET_DONE) or `stuck` (FLEET_STUCK).
 */
uint32_t fleet_rehearse(const uint8_t *program, size_t program_length,
                        const uint8_t *holds, size_t holds_length,
                        uint8_t *out, size_t room, size_t *length, struct fleet_fault *fault);

#ifdef __cplusplus
}
#endif

#endif
