#include "pairs.h"

#include "numbers.h"
#include "say.h"
#include "text.h"

#include <stdlib.h>

static int is_of_form(const struct pair_form *form, struct part first, struct part second, struct pair *pair)
{
    int read;

    if (form->first_is_hex)
        read = number_hex(first.at, first.length, form->first_most, &pair->first);
    else
        read = number_decimal(first.at, first.length, form->first_most, &pair->first);
    return read && number_hex(second.at, second.length, form->second_most, &pair->second);
}

static int read_lines(struct part text, const char *path, const struct pair_form *form, struct pairs *pairs)
{
    for (size_t line = 1; text.length != 0; line++) {
        struct part whole = text_line(&text);
        struct part rest = whole;
        struct part first = text_field(&rest);
        struct part second = text_field(&rest);
        struct pair *pair = &pairs->at[pairs->count];

        if (first.length == 0)
            continue;
        if (text_field(&rest).length != 0 || !is_of_form(form, first, second, pair))
            return say_bad_line(&(struct place){path, line, whole.at, whole.length}, form->says);
        pair->line = line;
        pairs->count++;
    }
    return pairs->count != 0 ? STATUS_GOOD : say_bad(path, form->nothing);
}

/* One pair for each line of the text, and one for a last line without its line feed. */
static size_t most_pairs(struct part text)
{
    size_t count = 1;

    for (size_t i = 0; i < text.length; i++)
        count += text.at[i] == '\n';
    return count;
}

int pairs_read(const char *path, const struct pair_form *form, struct pairs *pairs)
{
    struct bytes bytes = {NULL, 0};
    int status = text_read(path, &bytes);

    if (status == STATUS_GOOD) {
        struct part text = {(const char *)bytes.at, bytes.length};
        pairs->at = calloc(most_pairs(text), sizeof *pairs->at);
        status = pairs->at == NULL ? say_no_memory(path, NULL) : read_lines(text, path, form, pairs);
    }
    bytes_free(&bytes);
    return status;
}

void pairs_free(struct pairs *pairs)
{
    free(pairs->at);
    pairs->at = NULL;
    pairs->count = 0;
}
