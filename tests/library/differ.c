/*
 * Random inputs, each answered by the program and by libfleet:  differ FLEET COUNT SEED
 * Writes files where it runs. Prints the first difference, or how many were alike, which calls answered (`stuck`: a
 * rehearsal that is so) and which parts refused, and on standard error how many were answered and refused with each
 * number.
 */
#include "library.h"
#include <fcntl.h>
#include <sys/wait.h>
#include <unistd.h>

enum { MOST = 1 << 20, LINE = 4096, AGENTS = 4, SIDE = 6 };

enum call { CHECK, COMPILE, VERIFY, THIN, PLAN, REHEARSE, CALLS };

static const char *const call_names[] = {"check", "compile", "verify", "thin", "plan", "rehearse"};

/* What is given to a call, and how often which number was asked for. */
static struct {
    struct bytes map, scen, plan, program, holds;
    unsigned agents, horizon, tries, deps, dwell;
    int width, height, fleet;
    int starts[SIDE * SIDE], goals[SIDE * SIDE];
} given;

/* What the program is to print: its status, its standard output and error, and the file OUT. */
static struct {
    int status;
    char printed[MOST], line[LINE];
    struct bytes out;
    struct fleet_fault fault;
} due;

static uint64_t seed;

/* A number below n. */
static unsigned below(unsigned n)
{
    seed = seed * 6364136223846793005u + 1442695040888963407u;
    return (unsigned)((seed >> 33) % n);
}

static void put(struct bytes *to, const char *form, ...)
{
    va_list rest;
    va_start(rest, form);
    to->length += vsnprintf((char *)to->at + to->length, MOST - to->length, form, rest);
    va_end(rest);
}

/* The first k places of a shuffled list of the passable cells. */
static void shuffle(int *cells, int count)
{
    for (int i = count - 1; i > 0; i--) {
        int j = below(i + 1), kept = cells[i];
        cells[i] = cells[j];
        cells[j] = kept;
    }
}

static void make_problem(void)
{
    int cells = 0, block = below(40);
    given.width = 1 + below(SIDE), given.height = 1 + below(SIDE);
    given.map.length = given.scen.length = 0;
    put(&given.map, "type octile\nheight %d\nwidth %d\nmap\n", below(60) ? given.height : 0, given.width);
    for (int y = 0; y < given.height; y++) {
        for (int x = 0; x < given.width; x++) {
            int is_blocked = (int)below(100) < block;
            put(&given.map, "%c", is_blocked ? "@OTW"[below(4)] : ".GS"[below(3)]);
            if (!is_blocked) {
                given.starts[cells] = given.goals[cells] = y * given.width + x;
                cells++;
            }
        }
        put(&given.map, "\n");
    }
    if (below(60) == 0)
        put(&given.map, ".");
    shuffle(given.starts, cells);
    shuffle(given.goals, cells);
    given.fleet = cells < AGENTS ? cells : 1 + (int)below(AGENTS);
    if (given.fleet > 1 && below(30) == 0) {
        int *shared = below(2) ? given.starts : given.goals;
        shared[1] = shared[0];
    }
    put(&given.scen, "version 1\n");
    for (int i = 0; i < given.fleet; i++) {
        int s = given.starts[i], g = given.goals[i], w = given.width;
        put(&given.scen, "0\tm\t%d\t%d\t%d\t%d\t%d\t%d\t1\n", w, given.height, s % w, s / w, g % w, g / w);
    }
}

/* Changes, drops or doubles a byte here and there. */
static void mutate(struct bytes *it)
{
    for (int edits = 1 + below(2); edits > 0 && it->length > 0; edits--) {
        size_t i = below((unsigned)it->length);
        switch (below(4)) {
        case 0: it->at[i] = (uint8_t)below(256); break;
        case 1: it->at[i] = it->at[below((unsigned)it->length)]; break;
        case 2: memmove(it->at + i, it->at + i + 1, --it->length - i); break;
        default: memmove(it->at + i + 1, it->at + i, it->length++ - i);
        }
    }
}

/* One step of a walk to a place, along x and then along y: 0 north, 1 east, 2 south, 3 west. */
static int step_to(int *x, int *y, int to)
{
    int to_x = to % given.width, to_y = to / given.width;
    int step = *x < to_x ? 1 : *x > to_x ? 3 : *y < to_y ? 2 : 0;
    *x += (step == 1) - (step == 3), *y += (step == 2) - (step == 0);
    return step;
}

/* How many steps such a walk has. */
static int steps_to(int x, int y, int to)
{
    return abs(x - to % given.width) + abs(y - to / given.width);
}

/* Walks from the starts, which need not be free of conflict: to the goals, or at random, and now and then a rest. */
static void make_walks(void)
{
    int is_straight = below(2);
    given.plan.length = 0;
    for (int i = 0; i < given.fleet; i++) {
        int x = given.starts[i] % given.width, y = given.starts[i] / given.width, to = given.goals[i];
        put(&given.plan, "%d,%d", x, y);
        for (int steps = is_straight ? steps_to(x, y, to) : (int)below(7); steps > 0; steps--) {
            if (is_straight)
                step_to(&x, &y, to);
            else
                step_to(&x, &y, below(given.width * given.height));
            put(&given.plan, " %d,%d", x, y);
            if (below(6) == 0)
                put(&given.plan, " %d,%d", x, y);
        }
        put(&given.plan, "\n");
    }
}

/* A program of version 1 whose agents walk from their starts to their goals, with awaits by lot. */
static void make_program(void)
{
    struct bytes *it = &given.program;
    it->length = 0;
    put(it, "MPF1%c%c", 0, given.fleet);
    for (int i = 0; i < given.fleet; i++) {
        int w = given.width, x = given.starts[i] % w, y = given.starts[i] / w, to = given.goals[i];
        int moves = steps_to(x, y, to);
        put(it, "%c%c%c%c%c%c%c%c%c%c", 0, x, 0, y, 0, to % w, 0, to / w, 0, moves);
        for (; moves > 0; moves--) {
            int other = below(given.fleet);
            if (below(3) == 0 && other != i)
                put(it, "%c%c%c%c%c", 16, 0, other, 0, 1 + below(2));
            put(it, "%c", step_to(&x, &y, to));
        }
    }
}

static void make_holds(void)
{
    given.holds.length = 0;
    for (int lines = below(6); lines > 0; lines--) {
        int before = 0;
        for (int i = 0; i < given.fleet; i++)
            if (below(3) == 0)
                put(&given.holds, "%s%d", before++ ? " " : "", i);
        put(&given.holds, before ? "\n" : "-\n");
    }
}

static void make_inputs(void)
{
    struct fleet_fault fault;
    struct bytes *plan = &given.plan, *program = &given.program;
    make_problem();
    given.agents = below(10) ? 0 : below(5) ? 1 + below(AGENTS + 2) : 1025;
    given.horizon = 1 + below(40), given.tries = 1 + below(4);
    given.deps = below(2), given.dwell = below(2) * below(4);
    if (given.starts[0] != given.goals[0] && below(20) == 0)
        given.dwell = 1000000;
    if (below(3) == 0 || fleet_plan(given.map.at, given.map.length, given.scen.at, given.scen.length, 0, 40, 20,
            plan->at, MOST, &plan->length, &fault) != FLEET_DONE)
        make_walks();
    if (below(3) == 0 || fleet_compile(given.map.at, given.map.length, given.scen.at, given.scen.length, 0, plan->at,
            plan->length, given.deps, 0, program->at, MOST, &program->length, &fault) != FLEET_DONE)
        make_program();
    make_holds();
    if (below(40) == 0)
        plan->length = 0;
    if (below(2)) {
        struct bytes *all[] = {&given.map, &given.scen, plan, program, program, &given.holds};
        mutate(all[below(6)]);
    }
}

/* The numbers of an accepted program. */
static struct fleet_accepted numbers_of(const struct bytes *program)
{
    struct fleet_accepted it = {0};
    struct fleet_fault fault;
    fleet_verify(given.map.at, given.map.length, given.scen.at, given.scen.length, given.agents, program->at,
        program->length, &it, &fault);
    return it;
}

/* A call that answers bytes, with so much room. */
static uint32_t ask(enum call call, uint8_t *out, size_t room, size_t *length, struct fleet_fault *fault)
{
    const struct bytes *map = &given.map, *scen = &given.scen;
    switch (call) {
    case COMPILE:
        return fleet_compile(map->at, map->length, scen->at, scen->length, given.agents, given.plan.at,
            given.plan.length, given.deps, given.dwell, out, room, length, fault);
    case THIN:
        return fleet_thin(map->at, map->length, scen->at, scen->length, given.agents, given.program.at,
            given.program.length, out, room, length, fault);
    case PLAN:
        return fleet_plan(map->at, map->length, scen->at, scen->length, given.agents, given.horizon, given.tries, out,
            room, length, fault);
    default:
        return fleet_rehearse(given.program.at, given.program.length, given.holds.at, given.holds.length, out, room,
            length, fault);
    }
}

static void wrong(const char *what)
{
    printf("%s\n", what);
    exit(1);
}

/* The same with no room, with too little and with enough: what is written is the answer alone. */
static uint32_t ask_bytes(enum call call, struct fleet_fault *fault)
{
    size_t length = 12345;
    uint32_t status = ask(call, NULL, 0, &length, fault);
    due.out.length = 0;
    if (status != FLEET_TOO_SMALL) {
        if (length != (status == FLEET_DONE || status == FLEET_STUCK ? 0 : 12345))
            wrong("the length of a call that was refused");
        return status;
    }
    memset(due.out.at, 85, length + 1);
    if (ask(call, due.out.at, length - 1, &due.out.length, fault) != FLEET_TOO_SMALL || due.out.length != length)
        wrong("a buffer that is too small");
    for (size_t i = 0; i <= length; i++)
        if (due.out.at[i] != 85)
            wrong("a buffer that is too small was written");
    status = ask(call, due.out.at, length, &due.out.length, fault);
    if (due.out.length != length || due.out.at[length] != 85)
        wrong("the end of a buffer");
    return status;
}

/* What the program is to answer, by the library. */
static void call_library(enum call call)
{
    struct fleet_fault fault = {0};
    struct fleet_checked checked = {0};
    struct fleet_accepted it = {0};
    struct bytes *map = &given.map, *scen = &given.scen;
    uint32_t status;
    char *to = due.printed;
    to[0] = due.line[0] = 0;
    if (call == CHECK)
        status = fleet_check(map->at, map->length, scen->at, scen->length, given.agents, given.plan.at,
            given.plan.length, &checked, &fault);
    else if (call == VERIFY)
        status = fleet_verify(map->at, map->length, scen->at, scen->length, given.agents, given.program.at,
            given.program.length, &it, &fault);
    else
        status = ask_bytes(call, &fault);
    due.status = status == FLEET_STUCK ? 1 : (int)status;
    due.fault = fault;
    if (status != FLEET_DONE && status != FLEET_STUCK) {
        fault_line(due.line, LINE, &fault);
        return;
    }
    if (fault.part)
        wrong("a fault of a call that answered");
    if (call == CHECK) {
        add(to, MOST, "conflict-free\nagents %u\nsteps %u\n", checked.agents, checked.steps);
    } else if (call == VERIFY) {
        add(to, MOST, "accepted\nagents %u\nmoves %u\nawaits %u\nchain %u\n", it.agents, it.moves, it.awaits, it.chain);
    } else if (call == COMPILE) {
        it = numbers_of(&due.out);
        add(to, MOST, "agents %u\nmoves %u\nawaits %u\nbytes %zu\n", it.agents, it.moves, it.awaits, due.out.length);
    } else if (call == THIN) {
        add(to, MOST, "awaits %u\nawaits %u\n", numbers_of(&given.program).awaits, numbers_of(&due.out).awaits);
    } else {
        memcpy(to, due.out.at, due.out.length);
        to[due.out.length] = 0;
    }
}

static void write_file(const char *name, const struct bytes *it)
{
    FILE *file = fopen(name, "wb");
    if (!file || fwrite(it->at, 1, it->length, file) != it->length || fclose(file))
        wrong("a file could not be written");
}

/* Runs the program on files of the same, and answers its status. */
static int run_program(const char *fleet, enum call call)
{
    char agents[16], horizon[16], tries[16], dwell[16];
    const char *words[16] = {fleet, call_names[call]};
    int n = 2, status;
    snprintf(agents, 16, "%u", given.agents), snprintf(horizon, 16, "%u", given.horizon);
    snprintf(tries, 16, "%u", given.tries), snprintf(dwell, 16, "%u", given.dwell);
    if (call != REHEARSE)
        words[n++] = "map", words[n++] = "scen";
    if (call == CHECK || call == COMPILE)
        words[n++] = "plan";
    if (call == VERIFY || call == THIN || call == REHEARSE)
        words[n++] = "program";
    if (call == COMPILE || call == THIN)
        words[n++] = "out";
    if (given.agents && call != REHEARSE)
        words[n++] = "--agents", words[n++] = agents;
    if (call == PLAN)
        words[n++] = "--horizon", words[n++] = horizon, words[n++] = "--tries", words[n++] = tries;
    if (call == COMPILE)
        words[n++] = "--deps", words[n++] = given.deps ? "all" : "last", words[n++] = "--dwell", words[n++] = dwell;
    if (call == REHEARSE)
        words[n++] = "--holds", words[n++] = "holds";
    write_file("map", &given.map), write_file("scen", &given.scen), write_file("plan", &given.plan);
    write_file("program", &given.program), write_file("holds", &given.holds);
    unlink("out");
    pid_t child = fork();
    if (child == 0) {
        dup2(open("printed", O_WRONLY | O_CREAT | O_TRUNC, 0644), 1);
        dup2(open("told", O_WRONLY | O_CREAT | O_TRUNC, 0644), 2);
        execv(fleet, (char **)words);
        _exit(127);
    }
    if (child < 0 || waitpid(child, &status, 0) != child)
        wrong("the program could not be run");
    return WIFEXITED(status) ? WEXITSTATUS(status) : -1;
}

/* Whether a file has these bytes. */
static int is_file(const char *name, const void *at, size_t length)
{
    struct bytes it = read_file(name);
    int same = it.length == length && memcmp(it.at, at, length) == 0;
    free(it.at);
    return same;
}

/*
 * Whether the refusal that was printed has the line that is due; of a ring its first three actions, and so many in all.
 */
static int is_told(void)
{
    struct bytes told = read_file("told");
    size_t length = strlen(due.line);
    uint64_t actions = 0;
    int is_ring = strncmp(due.line, "verify 7 ", 9) == 0;
    int same = told.length > length && memcmp(told.at, due.line, length) == 0
        && (told.at[length] == '\n' ? told.length == length + 1 : is_ring && told.at[length] == ' ');
    for (size_t i = 0; i < told.length; i++)
        actions += told.at[i] == ':';
    free(told.at);
    return same && (!is_ring || due.fault.count == 2 * actions);
}

static int is_alike(const char *fleet, enum call call)
{
    if (run_program(fleet, call) != due.status)
        return 0;
    if (due.line[0])
        return is_told();
    return is_file("told", "", 0) && is_file("printed", due.printed, strlen(due.printed))
        && ((call != COMPILE && call != THIN) || is_file("out", due.out.at, due.out.length));
}

/* Null pointers go with lengths of 0: no map, and no program. */
static void ask_of_nothing(void)
{
    struct fleet_fault map = {0}, load = {0};
    size_t length = 0;
    if (fleet_plan(NULL, 0, NULL, 0, 0, 1, 1, NULL, 0, &length, &map) != FLEET_REFUSED || map.part != FLEET_MAP
        || fleet_rehearse(NULL, 0, NULL, 0, NULL, 0, &length, &load) != FLEET_REFUSED || load.part != FLEET_LOAD)
        wrong("null pointers");
}

/* Whether some input was refused by this part. */
static int has_refused(const unsigned *numbers)
{
    unsigned all = 0;
    for (unsigned number = 0; number < 16; number++)
        all += numbers[number];
    return all > 0;
}

int main(int words, char **word)
{
    static unsigned seen[FLEET_RUN + 1][16], answered[CALLS], stuck;
    unsigned count, i;
    if (words != 4)
        return 2;
    count = atoi(word[2]), seed = strtoull(word[3], NULL, 10);
    struct bytes *all[] = {&given.map, &given.scen, &given.plan, &given.program, &given.holds, &due.out};
    for (i = 0; i < 6; i++)
        all[i]->at = malloc(MOST);
    ask_of_nothing();
    for (i = 0; i < count; i++) {
        make_inputs();
        enum call call = below(CALLS);
        call_library(call);
        if (!is_alike(word[1], call)) {
            printf("input %u of seed %s: %s, due status %d %s\n", i, word[3], call_names[call], due.status, due.line);
            return 1;
        }
        seen[due.fault.part][due.fault.number]++;
        answered[call] += !due.fault.part;
        stuck += !due.fault.part && due.status == 1;
    }
    printf("%u of %u alike\nanswered:", i, count);
    for (unsigned call = 0; call < CALLS; call++)
        printf("%s%s", answered[call] ? " " : "", answered[call] ? call_names[call] : "");
    printf("%s\nrefused:", stuck ? " stuck" : "");
    for (unsigned part = 1; part <= FLEET_RUN; part++)
        printf("%s%s", has_refused(seen[part]) ? " " : "", has_refused(seen[part]) ? part_names[part] : "");
    printf("\n");
    fprintf(stderr, "%7u answered\n", seen[0][0]);
    for (unsigned part = 1; part <= FLEET_RUN; part++)
        for (unsigned number = 0; number < 16; number++)
            if (seen[part][number])
                fprintf(stderr, "%7u %s %u\n", seen[part][number], part_names[part], number);
    for (i = 0; i < 6; i++)
        free(all[i]->at);
    return 0;
}
