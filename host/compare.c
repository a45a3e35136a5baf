#include "compare.h"

#include "say.h"

#include <inttypes.h>
#include <stdio.h>

static int say_no_word(const char *path, const struct pair *pair)
{
    char text[24];
    int length = snprintf(text, sizeof text, "%08" PRIX64, pair->first);
    struct place place = {path, pair->line, text, (size_t)length};

    return say_bad_line(&place, "no word of RAM, ROM, belt or timer has that address");
}

int compare_read(const struct options *options, const struct world *world, struct pairs *words)
{
    static const struct pair_form form = {1, UINT32_MAX, UINT32_MAX,
                                          "not a line \"ADDRESS VALUE\", both hexadecimal up to FFFFFFFF",
                                          "has no line \"ADDRESS VALUE\": there is nothing to compare"};
    const char *path = options->given[OPTION_COMPARE];
    int status = path == NULL ? STATUS_GOOD : pairs_read(path, &form, words);
    uint32_t word;

    for (size_t i = 0; status == STATUS_GOOD && i < words->count; i++)
        if (!world_word(world, words->at[i].first, &word))
            status = say_no_word(path, &words->at[i]);
    return status;
}

int compare(const struct world *world, const struct pairs *words)
{
    size_t differ = 0;

    for (size_t i = 0; i < words->count; i++) {
        uint32_t model;
        if (!world_word(world, words->at[i].first, &model) || model == words->at[i].second)
            continue;
        printf("%08" PRIX64 ": model %08" PRIX32 ", given %08" PRIX64 "\n", words->at[i].first, model,
               words->at[i].second);
        differ++;
    }
    printf("words compared %zu, differ %zu\n", words->count, differ);
    return differ == 0 ? STATUS_GOOD : STATUS_DIFFERS;
}
