/* Each call on the same inputs, with what it is lent. */
#include "library.h"

enum { CALLS = 6, MOST = 1 << 16 };

static const char *const call_names[] = {"check", "compile", "verify", "thin", "plan", "rehearse"};

/* What a call is lent: a buffer, its length, numbers and a fault. */
struct lent {
    uint8_t out[MOST];
    size_t length;
    uint32_t numbers[4];
    struct fleet_fault fault;
};

static struct bytes map, scen, plan, program, holds;

/* Reads the files of these names: MAP SCEN PLAN PROGRAM HOLDS. */
static void read_inputs(char **name)
{
    map = read_file(name[0]), scen = read_file(name[1]), plan = read_file(name[2]);
    program = read_file(name[3]), holds = read_file(name[4]);
}

static uint32_t make(int call, struct lent *it)
{
    switch (call) {
    case 0:
        return fleet_check(map.at, map.length, scen.at, scen.length, 0, plan.at, plan.length,
            (struct fleet_checked *)it->numbers, &it->fault);
    case 1:
        return fleet_compile(map.at, map.length, scen.at, scen.length, 0, plan.at, plan.length, FLEET_DEPS_ALL, 1,
            it->out, MOST, &it->length, &it->fault);
    case 2:
        return fleet_verify(map.at, map.length, scen.at, scen.length, 0, program.at, program.length,
            (struct fleet_accepted *)it->numbers, &it->fault);
    case 3:
        return fleet_thin(map.at, map.length, scen.at, scen.length, 0, program.at, program.length, it->out, MOST,
            &it->length, &it->fault);
    case 4:
        return fleet_plan(map.at, map.length, scen.at, scen.length, 0, 100, 3, it->out, MOST, &it->length, &it->fault);
    default:
        return fleet_rehearse(program.at, program.length, holds.at, holds.length, it->out, MOST, &it->length,
            &it->fault);
    }
}
