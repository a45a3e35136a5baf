#include "model.h"

static struct eco32_charged run_charged(struct world *world, const struct request *request)
{
    return (request->to_exception ? eco32_run_to_exception_charged : eco32_run_charged)(
        world->machine, sizeof world->machine, world->ram.at, world->ram.length, world->rom.at, world->rom.length,
        world->belt.at, world->belt.length, request->charges, ECO32_CHARGES_LENGTH, request->steps, request->lines);
}

struct eco32_charged model_run(struct world *world, const struct request *request)
{
    struct eco32_answer answer;

    if (request->charges != NULL)
        return run_charged(world, request);
    answer = (request->to_exception ? eco32_run_to_exception : eco32_run)(
        world->machine, sizeof world->machine, world->ram.at, world->ram.length, world->rom.at, world->rom.length,
        world->belt.at, world->belt.length, request->steps, request->lines);
    return (struct eco32_charged){answer.refusal, answer.steps, answer.eid, answer.slot, 0};
}
