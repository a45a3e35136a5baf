#include "numbers.h"

#include <string.h>

struct unit {
    const char *name; /* in small letters; an empty name ends a list of units */
    uint64_t times;
};

/* The value of a digit in either letter case, or 16. */
static unsigned digit_value(char digit)
{
    static const char digits[] = "0123456789abcdef0123456789ABCDEF";
    const char *at = digit == '\0' ? NULL : strchr(digits, digit);

    return at == NULL ? 16 : (unsigned)(at - digits) % 16;
}

static int number_in(unsigned base, const char *text, size_t length, uint64_t most, uint64_t *number)
{
    uint64_t value = 0;

    for (size_t i = 0; i < length; i++) {
        unsigned digit = digit_value(text[i]);
        if (digit >= base || digit > most || value > (most - digit) / base)
            return 0;
        value = value * base + digit;
    }
    *number = value;
    return length != 0;
}

static int has_prefix(const char *text, size_t length)
{
    return length >= 2 && text[0] == '0' && (text[1] == 'x' || text[1] == 'X');
}

int number_decimal(const char *text, size_t length, uint64_t most, uint64_t *number)
{
    if (has_prefix(text, length))
        return number_in(16, text + 2, length - 2, most, number);
    return number_in(10, text, length, most, number);
}

int number_hex(const char *text, size_t length, uint64_t most, uint64_t *number)
{
    size_t prefix = has_prefix(text, length) ? 2 : 0;

    return number_in(16, text + prefix, length - prefix, most, number);
}

/* Letters alone: any byte that | 32 makes one of `end` is that letter. */
static int ends_with(const char *text, size_t length, const char *end)
{
    size_t end_length = strlen(end);

    if (length < end_length)
        return 0;
    for (size_t i = 0; i < end_length; i++)
        if ((text[length - end_length + i] | 32) != end[i])
            return 0;
    return 1;
}

static int number_with_unit(const char *text, const struct unit *units, uint64_t *number)
{
    size_t length = strlen(text);

    for (; units->name[0] != '\0' && !has_prefix(text, length); units++) {
        if (!ends_with(text, length, units->name))
            continue;
        if (!number_in(10, text, length - strlen(units->name), UINT64_MAX / units->times, number))
            return 0;
        *number *= units->times;
        return 1;
    }
    return number_decimal(text, length, UINT64_MAX, number);
}

int number_size(const char *text, uint64_t *bytes)
{
    static const struct unit units[] = {{"kib", 1024}, {"k", 1024}, {"mib", 1048576}, {"m", 1048576}, {"", 0}};

    return number_with_unit(text, units, bytes);
}

int number_count(const char *text, uint64_t *count)
{
    static const struct unit units[] = {{"k", 1000}, {"m", 1000000}, {"g", 1000000000}, {"", 0}};

    return number_with_unit(text, units, count);
}
