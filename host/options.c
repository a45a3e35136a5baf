#include "options.h"

#include "eco32.h"
#include "numbers.h"
#include "say.h"

#include <getopt.h>
#include <string.h>

/* What getopt_long answers for the first option: above every letter. */
#define FIRST_VALUE 256

#define FORM(option, name, argument) [option] = {"--" name, argument}

static const struct {
    const char *text;
    int argument;
} forms[OPTION_COUNT] = {
    FORM(OPTION_RAM_SIZE, "ram-size", required_argument),
    FORM(OPTION_LOAD, "load", required_argument),
    FORM(OPTION_BELT, "belt", required_argument),
    FORM(OPTION_STEPS, "steps", required_argument),
    FORM(OPTION_UNTIL_EXCEPTION, "until-exception", no_argument),
    FORM(OPTION_UNTIL_PC, "until-pc", required_argument),
    FORM(OPTION_BREAK, "break", required_argument),
    FORM(OPTION_LINES, "lines", required_argument),
    FORM(OPTION_LINES_SCRIPT, "lines-script", required_argument),
    FORM(OPTION_FIRST_STEP, "first-step", required_argument),
    FORM(OPTION_TRACE, "trace", no_argument),
    FORM(OPTION_CHARGES, "charges", required_argument),
    FORM(OPTION_CHARGE_TABLE, "charge-table", no_argument),
    FORM(OPTION_REGISTERS, "registers", no_argument),
    FORM(OPTION_TLB, "tlb", no_argument),
    FORM(OPTION_VIEW, "view", required_argument),
    FORM(OPTION_COMPARE, "compare", required_argument),
    FORM(OPTION_SAVE, "save", required_argument),
    FORM(OPTION_BELT_OUT, "belt-out", required_argument),
    FORM(OPTION_RAM_OUT, "ram-out", required_argument),
    FORM(OPTION_HELP, "help", no_argument),
    FORM(OPTION_VERSION, "version", no_argument),
};

const char *option_text(enum option_name option)
{
    return forms[option].text;
}

static int take_value(enum option_name option, const char *value, struct values *values)
{
    if (values->count == VALUES_MOST)
        return say_bad_value(forms[option].text, value, "given more than 32 times");
    values->text[values->count] = value;
    values->count++;
    return STATUS_GOOD;
}

static int take_option(enum option_name option, const char *value, struct options *options)
{
    int again = options->given[option] != NULL;

    options->given[option] = value == NULL ? "" : value;
    if (option == OPTION_BREAK)
        return take_value(option, value, &options->breaks);
    if (option == OPTION_VIEW)
        return take_value(option, value, &options->views);
    if (again)
        return value == NULL ? say_bad(forms[option].text, "given twice")
                             : say_bad_value(forms[option].text, value, "given twice");
    return STATUS_GOOD;
}

/* getopt_long itself says what it cannot take, with words[0] as the program's name. */
static int take_options(int count, char **words, struct options *options)
{
    struct option known[OPTION_COUNT + 1] = {{NULL, 0, NULL, 0}};
    int status = STATUS_GOOD;

    for (int i = 0; i < OPTION_COUNT; i++) {
        known[i].name = forms[i].text + 2;
        known[i].has_arg = forms[i].argument;
        known[i].val = FIRST_VALUE + i;
    }
    while (status == STATUS_GOOD) {
        int value = getopt_long(count, words, "h", known, NULL);
        if (value == -1)
            break;
        if (value == '?')
            status = STATUS_BAD;
        else
            status = take_option(value == 'h' ? OPTION_HELP : (enum option_name)(value - FIRST_VALUE), optarg, options);
    }
    return status;
}

static int take_files(int count, char **words, struct options *options)
{
    if (optind < count)
        options->rom = words[optind];
    if (optind + 1 < count)
        options->ram = words[optind + 1];
    if (optind + 2 < count)
        return say_bad(words[optind + 2], "a third file: eco32 takes only ROM and RAM (see --help)");
    return STATUS_GOOD;
}

static int take_hex(enum option_name option, const char *text, uint64_t most, const char *says, uint64_t *number)
{
    if (text == NULL || number_hex(text, strlen(text), most, number))
        return STATUS_GOOD;
    return say_bad_value(forms[option].text, text, says);
}

static int take_all_hex(enum option_name option, uint64_t most, const char *says, struct values *values)
{
    int status = STATUS_GOOD;

    for (size_t i = 0; status == STATUS_GOOD && i < values->count; i++)
        status = take_hex(option, values->text[i], most, says, &values->number[i]);
    return status;
}

static int take_hexadecimals(struct options *options)
{
    static const char pc_says[] = "not a hexadecimal address up to FFFFFFFF";
    uint64_t lines = 0;
    int status = take_hex(OPTION_LINES, options->given[OPTION_LINES], UINT16_MAX, "not a hexadecimal number up to FFFF",
                          &lines);

    options->lines = (uint16_t)lines;
    if (status == STATUS_GOOD)
        status = take_hex(OPTION_UNTIL_PC, options->given[OPTION_UNTIL_PC], UINT32_MAX, pc_says, &options->until_pc);
    if (status == STATUS_GOOD)
        status = take_all_hex(OPTION_BREAK, UINT32_MAX, pc_says, &options->breaks);
    if (status == STATUS_GOOD)
        status = take_all_hex(OPTION_VIEW, UINT64_MAX, "not a hexadecimal page number", &options->views);
    return status;
}

static int take_decimals(struct options *options)
{
    const char *size = options->given[OPTION_RAM_SIZE];
    const char *steps = options->given[OPTION_STEPS];
    const char *first = options->given[OPTION_FIRST_STEP];

    if (size != NULL && !number_size(size, &options->ram_size))
        return say_bad_value("--ram-size", size, "not a number of bytes, with or without the suffix k, KiB, M or MiB");
    if (steps != NULL && !number_count(steps, &options->steps))
        return say_bad_value("--steps", steps, "not a number up to 18446744073709551615, with or without the suffix k, M or G");
    if (first != NULL && (!number_decimal(first, strlen(first), INT64_MAX, &options->first_step) ||
                          options->first_step == 0))
        return say_bad_value("--first-step", first, "not a number from 1 to 9223372036854775807");
    return STATUS_GOOD;
}

int options_read(int count, char **words, struct options *options)
{
    static const struct options none;
    static char program[] = "eco32";
    int status;

    *options = none;
    options->steps = ECO32_MOST_STEPS;
    options->first_step = 1;
    if (count > 0)
        words[0] = program;
    status = take_options(count, words, options);
    if (status != STATUS_GOOD || options->given[OPTION_HELP] != NULL || options->given[OPTION_VERSION] != NULL)
        return status;
    status = take_files(count, words, options);
    if (status == STATUS_GOOD && options->rom == NULL)
        return say_bad("usage", "eco32 [OPTION]... ROM [RAM] (see --help)");
    if (status == STATUS_GOOD && options->given[OPTION_CHARGE_TABLE] != NULL && options->given[OPTION_CHARGES] == NULL)
        return say_bad("--charge-table", "only with --charges");
    if (status == STATUS_GOOD)
        status = take_decimals(options);
    return status == STATUS_GOOD ? take_hexadecimals(options) : status;
}
