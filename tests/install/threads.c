/* Calls in several threads at once, each on its own machine, RAM and belt and all on one ROM, answer and leave
 * what the same calls do one after another. */
#include <eco32.h>

#include <pthread.h>
#include <stdio.h>
#include <stdlib.h>
#include <string.h>

#define CELLS 4
#define CALLS 200
#define STEPS 1000

struct cell {
    uint8_t machine[ECO32_RECORD_LENGTH];
    uint8_t ram[ECO32_FRAME_LENGTH];
    uint8_t belt[ECO32_BELT_LENGTH];
    uint64_t steps;
    uint64_t slots; /* the slots of all calls, added up: each ends with the load of R2 */
    uint32_t refusals;
};

static uint8_t rom[ECO32_FRAME_LENGTH];
static struct cell together[CELLS], alone[CELLS];

/* LDHI R1, C000; LDHI R4, F050; LDW R5, R4, 0; LDW R2, R1, 0; ADD R2, R2, R5; STW R2, R1, 0; J back to LDW R2:
 * adds the belt's first word to RAM's, again and again. */
static const uint8_t program[] = {
    0x7C, 0x01, 0xC0, 0x00, 0x7C, 0x04, 0xF0, 0x50, 0xC0, 0x85, 0x00, 0x00, 0xC0, 0x22,
    0x00, 0x00, 0x00, 0x45, 0x10, 0x00, 0xD4, 0x22, 0x00, 0x00, 0xAB, 0xFF, 0xFF, 0xFC,
};

static void make(struct cell *cell, int number)
{
    memset(cell, 0, sizeof *cell);
    cell->belt[3] = (uint8_t)(number + 1);
    cell->refusals = eco32_reset(cell->machine, sizeof cell->machine) != ECO32_ACCEPTED;
}

static void *work(void *argument)
{
    struct cell *cell = argument;

    for (int i = 0; i < CALLS; i++) {
        struct eco32_answer answer =
            eco32_run(cell->machine, sizeof cell->machine, cell->ram, sizeof cell->ram, rom, sizeof rom, cell->belt,
                      sizeof cell->belt, STEPS, 0);
        cell->steps += answer.steps;
        cell->slots += answer.slot;
        cell->refusals += answer.refusal != ECO32_ACCEPTED;
    }
    return NULL;
}

int main(void)
{
    pthread_t threads[CELLS];

    memcpy(rom, program, sizeof program);
    for (int i = 0; i < CELLS; i++) {
        make(&together[i], i);
        make(&alone[i], i);
        work(&alone[i]);
    }
    for (int i = 0; i < CELLS; i++)
        if (pthread_create(&threads[i], NULL, work, &together[i]) != 0)
            return 2;
    for (int i = 0; i < CELLS; i++)
        pthread_join(threads[i], NULL);
    for (int i = 0; i < CELLS; i++)
        if (memcmp(&together[i], &alone[i], sizeof alone[i]) != 0 || alone[i].refusals != 0 ||
            alone[i].steps != CALLS * STEPS || alone[i].slots != CALLS * ECO32_DIRECT_MAPPED ||
            (i != 0 && memcmp(alone[i].ram, alone[0].ram, 4) == 0)) {
            printf("threads: FAILED: cell %d\n", i);
            return 1;
        }
    printf("threads: %d cells at once left what they leave alone\n", CELLS);
    return 0;
}
