#define _POSIX_C_SOURCE 200809L

#include "run.h"

#include "eco32_text.h"
#include "model.h"
#include "print.h"
#include "say.h"
#include "script.h"
#include "state.h"
#include "stop.h"
#include "trace.h"

#include <errno.h>
#include <inttypes.h>
#include <stdio.h>
#include <unistd.h>

/* Where a run stands. */
struct progress {
    uint64_t most;  /* steps of one call */
    uint64_t shown; /* steps of the last progress line; none yet if 0 */
    size_t next;    /* the script's next line */
    uint16_t lines; /* the interrupt lines now */
    int shows;      /* there are progress lines */
};

static int is_given(const struct options *options, enum option_name option)
{
    return options->given[option] != NULL;
}

/* Takes the lines of the next step, and answers for how many steps they hold, within what one call may make. */
static uint64_t next_steps(const struct options *options, const struct pairs *script, uint64_t made,
                           struct progress *progress)
{
    uint64_t steps = options->steps - made;

    for (; progress->next < script->count; progress->next++) {
        uint64_t after = script_after(options, script, progress->next);
        if (after > made) {
            steps = steps < after - made ? steps : after - made;
            break;
        }
        progress->lines = (uint16_t)script->at[progress->next].second;
    }
    return steps > progress->most ? progress->most : steps;
}

/* A refusal of the run is one of what it was lent, so that is named. */
static int say_run_refused(const struct options *options, uint32_t refusal)
{
    if (refusal == ECO32_REFUSED_RAM_LENGTH && is_given(options, OPTION_RAM_SIZE))
        return say_refused("--ram-size", options->given[OPTION_RAM_SIZE], refusal);
    if (refusal == ECO32_REFUSED_BELT_LENGTH && is_given(options, OPTION_BELT))
        return say_refused(options->given[OPTION_BELT], NULL, refusal);
    return say_refused("run", NULL, refusal);
}

/* One call of the library, by the user's charges, if there are any. With --charge-table it makes one step at most, and
 * the step's entry is counted. */
static struct eco32_charged make(const struct options *options, struct world *world, struct request *request,
                                 struct tally *tally)
{
    uint8_t marks[ECO32_CHARGES_LENGTH];
    struct eco32_charged answer;

    request->charges = is_given(options, OPTION_CHARGES) ? world->charges : NULL;
    if (!is_given(options, OPTION_CHARGE_TABLE))
        return model_run(world, request);
    tally_list(marks);
    request->charges = marks;
    answer = model_run(world, request);
    if (answer.steps != 0)
        answer.charge = tally_step(tally, answer.charge, world->charges);
    return answer;
}

static int call(const struct options *options, struct world *world, uint64_t steps, uint16_t lines,
                struct ending *ending)
{
    int traced = is_given(options, OPTION_TRACE);
    int until = is_given(options, OPTION_UNTIL_EXCEPTION);
    /* A traced step is a run of its own: its slot is the answer's. Only a run to exception names the EID. */
    struct request request = {steps, lines, traced || until, NULL};
    struct trace before;
    struct eco32_charged answer;

    if (traced)
        trace_before(world, &before);
    answer = make(options, world, &request, &ending->tally);
    if (answer.refusal != ECO32_ACCEPTED)
        return say_run_refused(options, answer.refusal);
    ending->made += answer.steps;
    ending->slot = answer.slot;
    ending->charge += answer.charge;
    if (until)
        ending->eid = answer.eid;
    if (traced && answer.steps != 0)
        trace_after(options->first_step + ending->made - 1, &answer, is_given(options, OPTION_CHARGES), &before, world);
    return STATUS_GOOD;
}

/* A long run shows on a terminal that it goes on. */
static void show(const struct options *options, uint64_t made, struct progress *progress)
{
    if (!progress->shows || (made - progress->shown < ECO32_MOST_STEPS && made != options->steps))
        return;
    fprintf(stderr, "\reco32: %" PRIu64 " of %" PRIu64 " steps", made, options->steps);
    fflush(stderr);
    progress->shown = made;
}

/* A PC of --break at which the run begins does not stop it: a run that was saved there goes on from there. */
static void look_at_pc(const struct options *options, const struct world *world, struct ending *ending)
{
    uint32_t pc = state_pc(world->machine);

    ending->reached = is_given(options, OPTION_UNTIL_PC) && pc == options->until_pc;
    ending->broke = 0;
    for (size_t i = 0; i < options->breaks.count; i++)
        ending->broke |= ending->made != 0 && pc == options->breaks.number[i];
}

/* Whether the run ends here; a signal counts only if it does not end here anyway. A trace that nobody can read any
 * more ends it too. */
static int ends(const struct options *options, const struct world *world, struct ending *ending)
{
    look_at_pc(options, world, ending);
    if (ending->made == options->steps || ending->eid != ECO32_NO_EXCEPTION || ending->reached || ending->broke)
        return 1;
    ending->signal = stop_signal();
    if (ferror(stdout))
        ending->unwritten = errno != 0 ? errno : EIO;
    return ending->signal != 0 || ending->unwritten != 0;
}

static void print_end(const struct options *options, const struct world *world, const struct ending *ending)
{
    printf("steps %" PRIu64 ", PC %08" PRIX32 ", mode %c", ending->made, state_pc(world->machine),
           state_mode(world->machine));
    if (ending->eid != ECO32_NO_EXCEPTION)
        printf(", EID %02" PRIu32 " (%s)", ending->eid, eco32_exception_name(ending->eid));
    else if (is_given(options, OPTION_UNTIL_EXCEPTION))
        printf(", no exception");
    if (ending->slot != ECO32_NO_SLOT) {
        printf(", data ");
        print_slot(ending->slot);
    }
    if (is_given(options, OPTION_CHARGES))
        printf(", charge %" PRIu64, ending->charge);
    if (is_given(options, OPTION_UNTIL_PC))
        printf(", --until-pc %08" PRIX64 " %s", options->until_pc, ending->reached ? "reached" : "not reached");
    if (ending->broke)
        printf(", stopped by --break");
    printf("%s\n", ending->signal != 0 ? ", stopped by a signal" : "");
}

int run(const struct options *options, const struct pairs *script, struct world *world, struct ending *ending)
{
    int by_step = is_given(options, OPTION_TRACE) || is_given(options, OPTION_BREAK) ||
                  is_given(options, OPTION_UNTIL_PC) || is_given(options, OPTION_CHARGE_TABLE);
    struct progress progress = {by_step ? 1 : ECO32_MOST_STEPS, 0, 0, options->lines, 0};
    int status;

    progress.shows = options->steps > ECO32_MOST_STEPS && !is_given(options, OPTION_TRACE) && isatty(STDERR_FILENO);
    *ending = (struct ending){.eid = ECO32_NO_EXCEPTION, .slot = ECO32_NO_SLOT};
    stop_prepare();
    errno = 0;
    /* A run of no steps is a call too, for its refusals. */
    status = call(options, world, 0, 0, ending);
    while (status == STATUS_GOOD && !ends(options, world, ending)) {
        uint64_t steps = next_steps(options, script, ending->made, &progress);
        status = call(options, world, steps, progress.lines, ending);
        show(options, ending->made, &progress);
    }
    if (progress.shown != 0)
        fputc('\n', stderr);
    if (status == STATUS_GOOD)
        print_end(options, world, ending);
    return status;
}
