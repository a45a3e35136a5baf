/*
 * Measures the model against the plain simulator in C and the simulator in Rust: the same image, the same run, in
 * one process, in turn. After each round all three have to have the same machine and memory, and the same last answer.
 * And the model's charged run against its run without charges, in the same way; the plain simulator checks its charge.
 */
#define _POSIX_C_SOURCE 200809L

#include "images.h"
#include "plain.h"

#include <pthread.h>
#include <stdio.h>
#include <stdlib.h>
#include <string.h>
#include <time.h>

#define SIDES 3

typedef struct eco32_answer run(uint8_t *machine, size_t machine_len, uint8_t *ram, size_t ram_len,
                                const uint8_t *rom, size_t rom_len, uint8_t *belt, size_t belt_len, uint64_t wanted,
                                uint16_t lines);

typedef struct eco32_charged charged_run(uint8_t *machine, size_t machine_len, uint8_t *ram, size_t ram_len,
                                         const uint8_t *rom, size_t rom_len, uint8_t *belt, size_t belt_len,
                                         const uint8_t *charges, size_t charges_len, uint64_t wanted, uint16_t lines);

/* reference/bench/rust */
run reference_run;

struct side {
    const char *name;
    run *run;
};

static const struct side sides[SIDES] = {{"model", eco32_run}, {"C", plain_run}, {"Rust", reference_run}};

/* The model first. C's charged run is not measured. */
#define CHARGED_SIDES 2

struct charged_side {
    const char *name;
    charged_run *run;
};

static const struct charged_side charged_sides[CHARGED_SIDES] = {{"model", eco32_run_charged},
                                                                 {"C", plain_run_charged}};

struct workload {
    const char *name;
    void (*image)(struct world *world);
    int timed;
};

/* The last two are the first two with a timer that runs. */
static const struct workload workloads[] = {{"Kernel Mode, direct-mapped", image_kernel, 0},
                                            {"User Mode, eight pages", image_user, 0},
                                            {"Kernel Mode, timer running", image_kernel, 1},
                                            {"User Mode, timer running", image_user, 1}};

static const struct workload charged_workloads[] = {{"Kernel Mode charged", image_kernel, 0},
                                                    {"User Mode charged", image_user, 0}};

struct options {
    uint64_t steps;
    uint64_t rounds;
};

static void fail(const char *name, const char *what)
{
    fprintf(stderr, "bench: %s %s\n", name, what);
    exit(1);
}

/* Time of this process alone: what else the machine does is not counted. */
static double seconds(void)
{
    struct timespec now;

    if (clock_gettime(CLOCK_PROCESS_CPUTIME_ID, &now) != 0)
        fail("clock_gettime", "fails");
    return (double)now.tv_sec + (double)now.tv_nsec * 1e-9;
}

static const uint8_t rom[ROM_LENGTH];

static struct eco32_answer call(const struct side *side, struct world *world, uint64_t wanted)
{
    struct eco32_answer answer = side->run(world->record, sizeof world->record, world->ram, sizeof world->ram, rom,
                                           sizeof rom, world->belt, sizeof world->belt, wanted, 0);

    if (answer.refusal != ECO32_ACCEPTED || answer.steps != wanted)
        fail(side->name, "did not make the steps");
    return answer;
}

/* Makes the steps in calls of at most a million, and answers the seconds. */
static double timed(const struct side *side, struct world *world, uint64_t steps, struct eco32_answer *last)
{
    double before = seconds();

    while (steps > 0) {
        uint64_t wanted = steps < ECO32_MOST_STEPS ? steps : ECO32_MOST_STEPS;

        *last = call(side, world, wanted);
        steps -= wanted;
    }
    return seconds() - before;
}

/* Makes calls of so many steps, and answers the seconds of one. */
static double timed_call(const struct side *side, struct world *world, uint64_t steps, struct eco32_answer *last)
{
    enum { CALLS = 1000 };
    double before = seconds();
    int n;

    for (n = 0; n < CALLS; n++)
        *last = call(side, world, steps);
    return (seconds() - before) / CALLS;
}

static int same_answer(const struct eco32_answer *a, const struct eco32_answer *b)
{
    return a->refusal == b->refusal && a->steps == b->steps && a->eid == b->eid && a->slot == b->slot;
}

static int same(const struct world *a, const struct world *b)
{
    return memcmp(a->record, b->record, sizeof a->record) == 0 && memcmp(a->ram, b->ram, sizeof a->ram) == 0 &&
           memcmp(a->belt, b->belt, sizeof a->belt) == 0;
}

/* The programs meet no exception but the trap of a kind: another would have changed the PSW. */
static void check(const struct world *start, const struct world worlds[SIDES], const struct eco32_answer answers[SIDES])
{
    struct plain_machine before;
    struct plain_machine after;
    int n;

    for (n = 1; n < SIDES; n++)
        if (!same(&worlds[0], &worlds[n]) || !same_answer(&answers[0], &answers[n]))
            fail(sides[n].name, "and the model do not agree");
    plain_read(&before, start->record);
    plain_read(&after, worlds[0].record);
    if (before.special[PSW] != after.special[PSW])
        fail("the program", "met an exception");
}

/* The least time of each side. */
static void measure(const struct world *start, uint64_t steps, uint64_t rounds, double least[SIDES])
{
    static struct world worlds[SIDES];
    struct eco32_answer answers[SIDES];
    uint64_t round;
    int n;

    for (round = 0; round < rounds; round++) {
        for (n = 0; n < SIDES; n++) {
            double time;

            worlds[n] = *start;
            time = timed(&sides[n], &worlds[n], steps, &answers[n]);
            if (round == 0 || time < least[n])
                least[n] = time;
        }
        check(start, worlds, answers);
    }
}

static void report(const struct workload *workload, const struct options *options)
{
    static struct world start;
    double least[SIDES];
    int n;

    workload->image(&start);
    if (workload->timed)
        start_timer(&start);
    measure(&start, options->steps, options->rounds, least);
    printf("%-26s", workload->name);
    for (n = 0; n < SIDES; n++)
        printf(" %8.1f", (double)options->steps / least[n] / 1e6);
    for (n = 1; n < SIDES; n++)
        printf(" %11.2f", least[n] / least[0]);
    printf("\n");
}

/* A list without two equal entries. */
static uint8_t charges[ECO32_CHARGES_LENGTH];

static void make_charges(void)
{
    int n;

    for (n = 0; n < ECO32_CHARGES_LENGTH; n++)
        charges[n] = (uint8_t)(37 * n + 11);
}

static struct eco32_charged call_charged(const struct charged_side *side, struct world *world, uint64_t wanted)
{
    struct eco32_charged answer =
        side->run(world->record, sizeof world->record, world->ram, sizeof world->ram, rom, sizeof rom, world->belt,
                  sizeof world->belt, charges, sizeof charges, wanted, 0);

    if (answer.refusal != ECO32_ACCEPTED || answer.steps != wanted)
        fail(side->name, "did not make the steps of a charged run");
    return answer;
}

/* Makes the steps as charged runs, and answers the seconds. The last answer takes the charge of all. */
static double timed_charged(const struct charged_side *side, struct world *world, uint64_t steps,
                            struct eco32_charged *last)
{
    double before = seconds();
    uint64_t charge = 0;

    while (steps > 0) {
        uint64_t wanted = steps < ECO32_MOST_STEPS ? steps : ECO32_MOST_STEPS;

        *last = call_charged(side, world, wanted);
        charge += last->charge;
        steps -= wanted;
    }
    last->charge = charge;
    return seconds() - before;
}

/* The other answers and all bytes are those without charges, and C has the same charge. */
static void check_charged(const struct world *plain, const struct eco32_answer *answer,
                          const struct world charged[CHARGED_SIDES], const struct eco32_charged answers[CHARGED_SIDES])
{
    int n;

    for (n = 0; n < CHARGED_SIDES; n++) {
        struct eco32_answer other = {answers[n].refusal, answers[n].steps, answers[n].eid, answers[n].slot};

        if (!same(plain, &charged[n]) || !same_answer(answer, &other))
            fail(charged_sides[n].name, "comes to something else with charges");
        if (answers[n].charge != answers[0].charge)
            fail(charged_sides[n].name, "and the model do not agree on a charge");
    }
}

/* The least times of the model, without charges and with them. */
static void measure_charged(const struct world *start, uint64_t steps, uint64_t rounds, double least[2])
{
    static struct world plain;
    static struct world charged[CHARGED_SIDES];
    struct eco32_answer answer;
    struct eco32_charged answers[CHARGED_SIDES];
    uint64_t round;

    for (round = 0; round < rounds; round++) {
        double times[2];
        int n;

        plain = charged[0] = charged[1] = *start;
        times[0] = timed(&sides[0], &plain, steps, &answer);
        times[1] = timed_charged(&charged_sides[0], &charged[0], steps, &answers[0]);
        timed_charged(&charged_sides[1], &charged[1], steps, &answers[1]);
        check_charged(&plain, &answer, charged, answers);
        for (n = 0; n < 2; n++)
            if (round == 0 || times[n] < least[n])
                least[n] = times[n];
    }
}

/* What charging costs. The instructions one by one are only checked: one of them is an exception. */
static void report_charged(const struct options *options)
{
    static struct world start;
    double least[2] = {0, 0};
    size_t row;

    printf("\n%-26s %8s %8s %13s\n", "Million steps a second", "plain", "charged", "charged/plain");
    for (row = 0; row < sizeof charged_workloads / sizeof charged_workloads[0]; row++) {
        charged_workloads[row].image(&start);
        measure_charged(&start, options->steps, options->rounds, least);
        printf("%-26s %8.1f %8.1f %13.2f\n", charged_workloads[row].name, (double)options->steps / least[0] / 1e6,
               (double)options->steps / least[1] / 1e6, least[0] / least[1]);
    }
    for (row = 0; row < KINDS; row++) {
        image_kind(&start, &kinds[row]);
        measure_charged(&start, 1000, 1, least);
    }
}

/* What a step costs by its instruction. */
static void report_kinds(const struct options *options)
{
    static struct world start;
    uint64_t steps = options->steps < 10 ? 1 : options->steps / 10;
    size_t row;

    printf("\n%-26s %8s %8s %8s\n", "Nanoseconds a step", sides[0].name, sides[1].name, sides[2].name);
    for (row = 0; row < KINDS; row++) {
        double least[SIDES];
        int n;

        image_kind(&start, &kinds[row]);
        measure(&start, steps, options->rounds, least);
        printf("%-26s", kinds[row].name);
        for (n = 0; n < SIDES; n++)
            printf(" %8.1f", least[n] / (double)steps * 1e9);
        printf("\n");
    }
}

/* What a call costs by its steps: with none it reads the record and writes it, and the model tests that it is fit. */
static void report_calls(const struct options *options)
{
    static const uint64_t steps[] = {0, 1, 16, 256};
    static struct world start;
    static struct world worlds[SIDES];
    size_t row;

    image_kernel(&start);
    printf("\n%-26s %8s %8s %8s\n", "Nanoseconds a call", sides[0].name, sides[1].name, sides[2].name);
    for (row = 0; row < sizeof steps / sizeof steps[0]; row++) {
        struct eco32_answer answers[SIDES];
        double least[SIDES];
        uint64_t round;
        int n;

        for (round = 0; round < options->rounds; round++)
            for (n = 0; n < SIDES; n++) {
                double time;

                worlds[n] = start;
                time = timed_call(&sides[n], &worlds[n], steps[row], &answers[n]);
                if (round == 0 || time < least[n])
                    least[n] = time;
            }
        check(&start, worlds, answers);
        printf("%3lu %-22s", (unsigned long)steps[row], steps[row] == 1 ? "step" : "steps");
        for (n = 0; n < SIDES; n++)
            printf(" %8.0f", least[n] * 1e9);
        printf("\n");
    }
}

/* The stack of a thread that makes a call of the model and a charged one, painted before: what is left of the paint was
 * not used. */
enum { STACK = 1 << 18, PAINT = 0xA5 };
static _Alignas(4096) uint8_t stack[STACK];

static void *one_call(void *world)
{
    call(&sides[0], world, 1000);
    call_charged(&charged_sides[0], world, 1000);
    return NULL;
}

static void *no_call(void *world)
{
    (void)world;
    return NULL;
}

static size_t stack_used(void *body(void *), struct world *world)
{
    pthread_attr_t attributes;
    pthread_t thread;
    size_t unused = 0;

    memset(stack, PAINT, sizeof stack);
    if (pthread_attr_init(&attributes) != 0 || pthread_attr_setstack(&attributes, stack, sizeof stack) != 0 ||
        pthread_create(&thread, &attributes, body, world) != 0 || pthread_join(thread, NULL) != 0)
        fail("a thread", "cannot be had");
    while (unused < sizeof stack && stack[unused] == PAINT)
        unused++;
    return sizeof stack - unused;
}

static void report_stack(void)
{
    static struct world world;

    image_user(&world);
    printf("\nA call of the model has %lu bytes of stack, and no other memory than it is lent.\n",
           (unsigned long)(stack_used(one_call, &world) - stack_used(no_call, &world)));
}

static uint64_t number(const char *text)
{
    char *end;
    unsigned long value = strtoul(text, &end, 10);

    if (*text < '0' || *text > '9' || *end != '\0' || value == 0 || value > 1000000000)
        fail(text, "is no count from 1 to 1000000000");
    return value;
}

static struct options read_options(int count, char **words)
{
    struct options options = {1000000, 100};
    int n;

    for (n = 1; n + 1 < count; n += 2) {
        if (strcmp(words[n], "--steps") == 0)
            options.steps = number(words[n + 1]);
        else if (strcmp(words[n], "--rounds") == 0)
            options.rounds = number(words[n + 1]);
        else
            break;
    }
    if (n < count)
        fail("takes", "[--steps N] [--rounds N]");
    return options;
}

int main(int count, char **words)
{
    struct options options = read_options(count, words);
    size_t n;

    printf("Million steps a second, by the least time of %lu rounds of %lu steps.\n", (unsigned long)options.rounds,
           (unsigned long)options.steps);
    printf("Ratios are of speeds: above 1 the model is the faster.\n\n");
    printf("%-26s %8s %8s %8s %11s %11s\n", "", "model", "C", "Rust", "model/C", "model/Rust");
    for (n = 0; n < sizeof workloads / sizeof workloads[0]; n++)
        report(&workloads[n], &options);
    make_charges();
    report_charged(&options);
    report_kinds(&options);
    report_calls(&options);
    report_stack();
    printf("\nAfter each run the three had the same machine, memory and answer.\n");
    printf("After each charged run the model and C had the same charge, and all else as without charges.\n");
    return 0;
}
