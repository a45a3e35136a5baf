/* eco32: a command-line host of the ECO32 model. Its help says what it does. */
#define _XOPEN_SOURCE 700

#include "charges.h"
#include "compare.h"
#include "options.h"
#include "outputs.h"
#include "print.h"
#include "run.h"
#include "say.h"
#include "script.h"
#include "stop.h"
#include "eco32.h"
#include "world.h"

#include <errno.h>
#include <signal.h>
#include <stdio.h>
#include <string.h>

/* Everything that a run takes and leaves. */
struct job {
    struct world world;
    struct pairs script;
    struct pairs words;
    struct outputs outputs;
    struct ending ending;
};

/* Tries the outputs and reads all files before the first step, so that a long run is not lost to a wrong name. */
static int prepare(const struct options *options, struct job *job)
{
    int status = outputs_try(options, &job->outputs);

    if (status == STATUS_GOOD)
        status = world_make(options, &job->world);
    if (status == STATUS_GOOD)
        status = script_read(options, &job->script);
    if (status == STATUS_GOOD)
        status = charges_read(options, &job->world);
    if (status == STATUS_GOOD)
        status = compare_read(options, &job->world, &job->words);
    return status;
}

/* The words are those of the whole run, so a run that a signal stopped is not compared. */
static int show(const struct options *options, const struct job *job)
{
    int status = STATUS_GOOD;

    if (options->given[OPTION_CHARGE_TABLE] != NULL)
        tally_print(&job->ending.tally, job->world.charges);
    if (options->given[OPTION_REGISTERS] != NULL)
        print_registers(job->world.machine);
    if (options->given[OPTION_TLB] != NULL)
        print_tlb(job->world.machine);
    for (size_t i = 0; status == STATUS_GOOD && i < options->views.count; i++)
        status = print_view(&job->world, options->views.text[i], options->views.number[i]);
    if (status == STATUS_GOOD && options->given[OPTION_COMPARE] != NULL && job->ending.signal == 0)
        status = compare(&job->world, &job->words);
    return status;
}

/* Tells what stopped the run before its end, if anything did, and what became of the files. */
static void say_end(const struct options *options, const struct ending *ending, int written)
{
    int asked = options->given[OPTION_SAVE] != NULL || options->given[OPTION_BELT_OUT] != NULL ||
                options->given[OPTION_RAM_OUT] != NULL;
    const char *rest = !asked ? "" : written ? "; what was to be saved is saved" : "; saving it failed";

    if (ending->signal != 0)
        say_stopped(ending->signal == SIGINT ? "SIGINT" : "SIGTERM", "", ending->made, rest);
    else if (ending->unwritten != 0)
        say_stopped("standard output: ", strerror(ending->unwritten), ending->made, rest);
}

/* Writes the files first, so that nothing after them keeps them from being written. What was printed comes before
 * them, as one of them may be standard output too. */
static int finish(const struct options *options, struct job *job)
{
    int unwritten = fflush(stdout) == 0 ? 0 : errno;
    int status = outputs_write(&job->outputs, &job->world);

    say_end(options, &job->ending, status == STATUS_GOOD);
    if (job->ending.unwritten != 0)
        return STATUS_BAD;
    if (unwritten != 0)
        return say_bad("standard output", strerror(unwritten));
    errno = 0;
    if (status == STATUS_GOOD)
        status = show(options, job);
    if (status != STATUS_GOOD && status != STATUS_DIFFERS)
        return status;
    if (job->ending.signal != 0)
        return STATUS_SIGNAL + job->ending.signal;
    if (options->given[OPTION_UNTIL_PC] != NULL && !job->ending.reached)
        return STATUS_NOT_REACHED;
    return status;
}

static int work(const struct options *options)
{
    static struct job job;
    int status;

    stop_no_write_signals();
    status = prepare(options, &job);
    if (status == STATUS_GOOD)
        status = run(options, &job.script, &job.world, &job.ending);
    if (status == STATUS_GOOD)
        status = finish(options, &job);
    world_free(&job.world);
    pairs_free(&job.script);
    pairs_free(&job.words);
    return status;
}

int main(int count, char **words)
{
    struct options options;
    int status = options_read(count, words, &options);

    if (status != STATUS_GOOD)
        return status;
    errno = 0;
    if (options.given[OPTION_HELP] != NULL)
        options_help();
    else if (options.given[OPTION_VERSION] != NULL)
        puts("eco32 " ECO32_VERSION);
    else
        status = work(&options);
    if ((fflush(stdout) != 0 || ferror(stdout)) && status != STATUS_BAD)
        return say_bad("standard output", errno != 0 ? strerror(errno) : "cannot be written");
    return status;
}
