#define _XOPEN_SOURCE 700

#include "outputs.h"

#include "say.h"

#include <stdio.h>
#include <string.h>
#include <unistd.h>

static int is_file(const struct output *output, const struct stat *stat)
{
    return output->exists && output->stat.st_dev == stat->st_dev && output->stat.st_ino == stat->st_ino;
}

static int are_one(const struct output *a, const struct output *b)
{
    return is_file(a, &b->stat) || (!a->exists && !b->exists && strcmp(a->place, b->place) == 0);
}

static int say_same(const struct output *output, const char *other, const char *more)
{
    char message[80];

    snprintf(message, sizeof message, "the same file as %s%s", other, more);
    return say_bad_value(output->option, output->path, message);
}

/* Whether a file that is read is this output. Those that cannot be found are told when they are read. */
static int check_inputs(const struct options *options, const struct output *output)
{
    static const enum option_name read[] = {OPTION_LOAD, OPTION_BELT, OPTION_LINES_SCRIPT, OPTION_CHARGES,
                                            OPTION_COMPARE};
    static const char is_input[] = ", which is an input";
    struct stat input;

    if (stat(options->rom, &input) == 0 && is_file(output, &input))
        return say_same(output, "the ROM image", is_input);
    if (options->ram != NULL && stat(options->ram, &input) == 0 && is_file(output, &input))
        return say_same(output, "the RAM image", is_input);
    for (size_t i = 0; i < sizeof read / sizeof read[0]; i++) {
        const char *path = options->given[read[i]];
        if (path != NULL && stat(path, &input) == 0 && is_file(output, &input))
            return say_same(output, option_text(read[i]), is_input);
    }
    return STATUS_GOOD;
}

/* Lines printed to a file that is then replaced would be lost. */
static int check_streams(const struct output *output)
{
    struct stat stream;

    if (fstat(STDOUT_FILENO, &stream) == 0 && S_ISREG(stream.st_mode) && is_file(output, &stream))
        return say_same(output, "standard output", "");
    if (fstat(STDERR_FILENO, &stream) == 0 && S_ISREG(stream.st_mode) && is_file(output, &stream))
        return say_same(output, "standard error", "");
    return STATUS_GOOD;
}

static int try_one(const struct options *options, struct outputs *outputs, int which)
{
    struct output *output = &outputs->each[which];
    int failed = output_try(output);
    int status;

    if (failed != 0)
        return say_bad_value(output->option, output->path, strerror(failed));
    for (int i = 0; i < which; i++)
        if (outputs->each[i].path != NULL && are_one(&outputs->each[i], output))
            return say_same(output, outputs->each[i].option, "");
    status = check_inputs(options, output);
    return status == STATUS_GOOD ? check_streams(output) : status;
}

int outputs_try(const struct options *options, struct outputs *outputs)
{
    static const enum option_name names[OUTPUT_COUNT] = {
        [OUTPUT_SAVE] = OPTION_SAVE,
        [OUTPUT_BELT] = OPTION_BELT_OUT,
        [OUTPUT_RAM] = OPTION_RAM_OUT,
    };
    int status = STATUS_GOOD;

    for (int i = 0; i < OUTPUT_COUNT && status == STATUS_GOOD; i++) {
        outputs->each[i].option = option_text(names[i]);
        outputs->each[i].path = options->given[names[i]];
        if (outputs->each[i].path != NULL)
            status = try_one(options, outputs, i);
    }
    return status;
}

static int fill(struct output *output, const uint8_t *at, size_t length)
{
    int failed = output->path == NULL ? 0 : output_fill(output, at, length);

    return failed == 0 ? STATUS_GOOD : say_bad_value(output->option, output->path, strerror(failed));
}

static int fill_all(struct outputs *outputs, const struct world *world)
{
    uint8_t record[ECO32_RECORD_LENGTH];
    uint32_t refusal = eco32_write_record(world->machine, sizeof world->machine, record, sizeof record);
    int status = refusal == ECO32_ACCEPTED ? STATUS_GOOD : say_refused("record", NULL, refusal);

    if (status == STATUS_GOOD)
        status = fill(&outputs->each[OUTPUT_SAVE], record, sizeof record);
    if (status == STATUS_GOOD)
        status = fill(&outputs->each[OUTPUT_BELT], world->belt.at, world->belt.length);
    if (status == STATUS_GOOD)
        status = fill(&outputs->each[OUTPUT_RAM], world->ram.at, world->ram.length);
    return status;
}

int outputs_write(struct outputs *outputs, const struct world *world)
{
    int status = fill_all(outputs, world);

    for (int i = 0; i < OUTPUT_COUNT; i++) {
        struct output *output = &outputs->each[i];
        int failed = status == STATUS_GOOD ? output_place(output) : 0;
        if (failed != 0)
            status = say_bad_value(output->option, output->path, strerror(failed));
        output_drop(output);
    }
    return status;
}
