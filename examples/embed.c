/* Plans, compiles and verifies in memory: cc embed.c $(pkg-config --cflags --libs fleet) && ./a.out MAP SCEN */
#include "fleet.h"
#include <stdio.h>
#include <stdlib.h>

/* A whole file, of less than so many bytes. Where there is none such, the program ends. */
static size_t read_file(const char *name, uint8_t *at, size_t room)
{
    FILE *file = fopen(name, "rb");
    size_t length = file ? fread(at, 1, room, file) : 0;
    if (!file || ferror(file) || length == room) {
        fprintf(stderr, "%s cannot be read\n", name);
        exit(3);
    }
    fclose(file);
    return length;
}

/* Says why a call answered nothing. */
static int refused(const char *call, const struct fleet_fault *fault)
{
    fprintf(stderr, "%s: part %u, number %u\n", call, fault->part, fault->number);
    return 1;
}

int main(int count, char **names)
{
    static uint8_t map[1 << 20], scen[1 << 20];
    /* What is told if a malloc of this program fails: a call that answers leaves it so. */
    struct fleet_fault fault = {FLEET_MEMORY, 1, 0, {0}};
    struct fleet_accepted accepted;
    if (count != 3)
        return 2;
    size_t maps = read_file(names[1], map, sizeof map);
    size_t scens = read_file(names[2], scen, sizeof scen);

    /* The first call asks for the length: it plans, and hands nothing over. */
    size_t plans = 0, programs = 0;
    if (fleet_plan(map, maps, scen, scens, 0, 1024, 1, NULL, 0, &plans, &fault) != FLEET_TOO_SMALL)
        return refused("plan", &fault);
    uint8_t *plan = malloc(plans), *program = NULL;
    if (!plan || fleet_plan(map, maps, scen, scens, 0, 1024, 1, plan, plans, &plans, &fault) != FLEET_DONE)
        return refused("plan", &fault);

    if (fleet_compile(map, maps, scen, scens, 0, plan, plans, FLEET_DEPS_LAST, 0, NULL, 0, &programs, &fault)
        != FLEET_TOO_SMALL)
        return refused("compile", &fault);
    program = malloc(programs);
    if (!program || fleet_compile(map, maps, scen, scens, 0, plan, plans, FLEET_DEPS_LAST, 0, program, programs,
            &programs, &fault) != FLEET_DONE)
        return refused("compile", &fault);

    if (fleet_verify(map, maps, scen, scens, 0, program, programs, &accepted, &fault) != FLEET_DONE)
        return refused("verify", &fault);
    printf("agents %u\nmoves %u\nawaits %u\nchain %u\n", accepted.agents, accepted.moves, accepted.awaits, accepted.chain);
    free(program);
    free(plan);
    return 0;
}
