/*
 * Replays the file of vectors on the plain simulator: machine, EID, slot and all memory after each step. Steps in a row with
 * the same lines are made once more as one run, which has to end alike, with the slot of its last step: it makes the timer's
 * ticks and the moves of the replacement index in another way.
 *
 * The file's commands have 8 bytes, big-endian: a kind byte, a number a of 24 bits, a number b of 32 bits.
 * reference/src/vectors/writer.rs writes them.
 */
#include "plain.h"

#include <stdio.h>
#include <stdlib.h>
#include <string.h>

enum command { CLEAR, RECORD_WORD, RECORD_BYTE, RAM_WORD, ROM_WORD, BELT_WORD, START, STEP, END };

struct scene {
    uint8_t record[ECO32_RECORD_LENGTH];
    uint8_t ram[8192];
    uint8_t rom[4096];
    uint8_t belt[ECO32_BELT_LENGTH];
};

struct replay {
    struct scene expected;
    struct scene found;
    struct scene run; /* as found, but for the steps that wait for their run */
    uint64_t waiting;
    uint16_t lines; /* of the steps that wait */
    uint32_t slot;  /* of the last of them */
    unsigned long cases;
    unsigned long steps;
    unsigned long mismatches;
};

static void fail(const char *what)
{
    fprintf(stderr, "replay: %s\n", what);
    exit(2);
}

static uint32_t word_at(const uint8_t *at)
{
    return (uint32_t)at[0] << 24 | (uint32_t)at[1] << 16 | (uint32_t)at[2] << 8 | at[3];
}

static void put_word(uint8_t *region, size_t length, uint32_t at, const uint8_t *word)
{
    if (at > length - 4)
        fail("the file of vectors is damaged: an offset is out of bounds");
    memcpy(region + at, word, 4);
}

static void clear(struct scene *scene)
{
    struct plain_machine m;

    memset(scene, 0, sizeof *scene);
    plain_reset(&m);
    plain_write(&m, scene->record);
}

/* Most mismatches that are told one by one. */
#define MOST_TOLD 10

/* Counts a mismatch. Answers whether it is told. */
static int mismatch(struct replay *replay)
{
    return ++replay->mismatches <= MOST_TOLD;
}

/* Makes the run of the steps that wait. */
static void run(struct replay *replay)
{
    struct scene *scene = &replay->run;
    uint64_t steps = replay->waiting;
    struct eco32_answer answer;

    if (steps == 0)
        return;
    replay->waiting = 0;
    answer = plain_run(scene->record, sizeof scene->record, scene->ram, sizeof scene->ram, scene->rom, sizeof scene->rom,
                       scene->belt, sizeof scene->belt, steps, replay->lines);
    if (answer.slot == replay->slot && memcmp(scene, &replay->found, sizeof *scene) == 0)
        return;
    if (mismatch(replay))
        fprintf(stderr, "replay: case %lu, up to step %lu of the file: a run of %lu steps ends in another state or slot\n",
                replay->cases, replay->steps, (unsigned long)steps);
    *scene = replay->found;
}

/* A step is told as its slot times 256, and its EID. The replay goes on from the expected scene, so that each step is judged
 * by itself. */
static void step(struct replay *replay, uint16_t lines, uint32_t expected)
{
    struct scene *found = &replay->found;
    struct plain_memory memory = {found->ram, sizeof found->ram, found->rom, sizeof found->rom, found->belt};
    struct plain_machine m;
    struct plain_answer answer;

    if (lines != replay->lines)
        run(replay);
    replay->lines = lines;
    replay->waiting++;
    plain_read(&m, found->record);
    answer = plain_step(&m, &memory, lines);
    plain_write(&m, found->record);
    replay->slot = answer.slot;
    replay->steps++;
    if (answer.slot * 256 + answer.eid == expected && memcmp(found, &replay->expected, sizeof *found) == 0)
        return;
    if (mismatch(replay))
        fprintf(stderr, "replay: case %lu, step %lu of the file: another state, EID (%lu, expected %lu) or slot (%lu, %lu)\n",
                replay->cases, replay->steps, (unsigned long)answer.eid, (unsigned long)(expected % 256),
                (unsigned long)answer.slot, (unsigned long)(expected / 256));
    *found = replay->expected;
    replay->run = replay->expected;
    replay->waiting = 0;
}

/* Answers 0 at the end of the file. */
static int obey(struct replay *replay, const uint8_t *command)
{
    struct scene *expected = &replay->expected;
    uint32_t a = word_at(command) & 0xFFFFFF;
    uint32_t b = word_at(command + 4);

    switch (command[0]) {
    case CLEAR:
        run(replay);
        clear(expected);
        replay->cases++;
        break;
    case RECORD_WORD: put_word(expected->record, sizeof expected->record, a, command + 4); break;
    case RECORD_BYTE:
        if (a >= sizeof expected->record)
            fail("the file of vectors is damaged: an offset is out of bounds");
        expected->record[a] = (uint8_t)b;
        break;
    case RAM_WORD: put_word(expected->ram, sizeof expected->ram, a, command + 4); break;
    case ROM_WORD: put_word(expected->rom, sizeof expected->rom, a, command + 4); break;
    case BELT_WORD: put_word(expected->belt, sizeof expected->belt, a, command + 4); break;
    case START:
        run(replay);
        replay->found = replay->run = *expected;
        break;
    case STEP: step(replay, (uint16_t)a, b); break;
    case END:
        run(replay);
        if (b != replay->cases)
            fail("the file of vectors is damaged: it has another count of cases");
        return 0;
    default: fail("the file of vectors is damaged: no such command");
    }
    return 1;
}

int main(int count, char **words)
{
    static struct replay replay;
    uint8_t command[8];
    FILE *file;

    if (count != 2)
        fail("usage: replay FILE");
    file = fopen(words[1], "rb");
    if (!file)
        fail("the file of vectors cannot be opened");
    do {
        if (fread(command, sizeof command, 1, file) != 1)
            fail("the file of vectors is cut off");
    } while (obey(&replay, command));
    fclose(file);
    printf("cases: %lu\nsteps: %lu\nmismatches: %lu\n", replay.cases, replay.steps, replay.mismatches);
    return replay.mismatches != 0;
}
