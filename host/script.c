#include "script.h"

#include "say.h"

#include <inttypes.h>
#include <stdio.h>

static int say_bad_step(const char *path, const struct pair *pair)
{
    char text[24];
    int length = snprintf(text, sizeof text, "%" PRIu64, pair->first);
    struct place place = {path, pair->line, text, (size_t)length};

    return say_bad_line(&place, "steps count from 1 and go up");
}

int script_read(const struct options *options, struct pairs *script)
{
    static const struct pair_form form = {0, UINT64_MAX, UINT16_MAX, "not a line \"STEP HEX\", with lines up to FFFF",
                                          "has no line \"STEP HEX\""};
    const char *path = options->given[OPTION_LINES_SCRIPT];
    int status = path == NULL ? STATUS_GOOD : pairs_read(path, &form, script);

    for (size_t i = 0; status == STATUS_GOOD && i < script->count; i++) {
        uint64_t before = i == 0 ? 0 : script->at[i - 1].first;
        if (script->at[i].first <= before)
            status = say_bad_step(path, &script->at[i]);
    }
    return status;
}

uint64_t script_after(const struct options *options, const struct pairs *script, size_t i)
{
    uint64_t step = script->at[i].first;

    return step > options->first_step ? step - options->first_step : 0;
}
