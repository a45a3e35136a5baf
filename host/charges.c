#include "charges.h"

#include "numbers.h"
#include "say.h"
#include "text.h"

#include <stdio.h>

#define OPCODE_DIGITS 2

/* The list while it is read. */
struct reading {
    uint8_t *list;
    size_t line[CHARGE_COUNT]; /* in which an entry was named; 0 for none */
};

uint32_t charge_at(const uint8_t *list, unsigned entry)
{
    return (uint32_t)list[2 * entry] << 8 | list[2 * entry + 1];
}

void charge_put(uint8_t *list, unsigned entry, uint64_t charge)
{
    list[2 * entry] = (uint8_t)(charge >> 8);
    list[2 * entry + 1] = (uint8_t)charge;
}

const char *charge_name(unsigned entry)
{
    return entry == CHARGE_EXCEPTION ? "exception" : opcode_name(entry);
}

/* The entry of a name, or CHARGE_COUNT. An opcode has two digits, so none is a mnemonic too: ADD has three. */
static unsigned entry_named(struct part name)
{
    uint64_t opcode;

    if (is_word(name.at, name.length, "EXCEPTION"))
        return CHARGE_EXCEPTION;
    if (name.length != OPCODE_DIGITS || !number_hex(name.at, name.length, OPCODE_COUNT - 1, &opcode))
        opcode = opcode_named(name.at, name.length);
    return opcode < OPCODE_COUNT ? (unsigned)opcode : CHARGE_COUNT;
}

static int say_twice(const struct place *place, size_t first)
{
    char message[80];

    snprintf(message, sizeof message, "has its charge in line %zu already", first);
    return say_bad_line(place, message);
}

static int take_entry(const struct place *place, struct part name, struct part number, struct reading *reading)
{
    unsigned entry = entry_named(name);
    uint64_t charge;

    if (entry == CHARGE_COUNT)
        return say_bad_line(place, "not a mnemonic, an opcode from 00 to 3F or \"exception\"");
    if (charge_name(entry) == NULL)
        return say_bad_line(place, "an illegal opcode, which no step completes");
    if (!number_decimal(number.at, number.length, CHARGE_MOST, &charge))
        return say_bad_line(place, "the charge is not a number up to 65535");
    if (reading->line[entry] != 0)
        return say_twice(place, reading->line[entry]);
    reading->line[entry] = place->line;
    charge_put(reading->list, entry, charge);
    return STATUS_GOOD;
}

/* A last line without its line feed may be cut, and a cut number is another charge. */
static int take_line(const char *path, size_t line, struct part *text, struct reading *reading)
{
    const char *end = text->at + text->length;
    struct part whole = text_line(text);
    struct part rest = whole;
    struct part name = text_field(&rest);
    struct part number = text_field(&rest);
    struct place place = {path, line, whole.at, whole.length};

    if (text->length == 0 && end[-1] != '\n')
        return say_bad_line(&place, "no line feed at its end: the file may be cut");
    if (name.length == 0)
        return STATUS_GOOD;
    if (number.length == 0 || text_field(&rest).length != 0)
        return say_bad_line(&place, "not a line \"NAME CHARGE\"");
    return take_entry(&place, name, number, reading);
}

static int read_lines(const char *path, struct part text, uint8_t *list)
{
    struct reading reading = {list, {0}};
    int status = STATUS_GOOD;
    size_t named = 0;

    for (size_t line = 1; status == STATUS_GOOD && text.length != 0; line++)
        status = take_line(path, line, &text, &reading);
    for (unsigned i = 0; i < CHARGE_COUNT; i++)
        named += reading.line[i] != 0;
    return status != STATUS_GOOD || named != 0 ? status : say_bad(path, "has no line \"NAME CHARGE\"");
}

/* The charge of one call always fits in 64 bits. The sum over all calls of a long run has to fit too, to be exact. */
static int check_total(const struct options *options, const uint8_t *list)
{
    uint32_t largest = 1;

    for (unsigned i = 0; i < CHARGE_COUNT; i++)
        largest = charge_at(list, i) > largest ? charge_at(list, i) : largest;
    if (options->steps <= UINT64_MAX / largest)
        return STATUS_GOOD;
    return say_bad_value("--steps", options->given[OPTION_STEPS],
                         "by these charges the steps may cost more than 18446744073709551615");
}

int charges_read(const struct options *options, struct world *world)
{
    const char *path = options->given[OPTION_CHARGES];
    struct bytes bytes = {NULL, 0};
    int status;

    if (path == NULL)
        return STATUS_GOOD;
    status = text_read(path, &bytes);
    if (status == STATUS_GOOD)
        status = read_lines(path, (struct part){(const char *)bytes.at, bytes.length}, world->charges);
    bytes_free(&bytes);
    return status == STATUS_GOOD ? check_total(options, world->charges) : status;
}
