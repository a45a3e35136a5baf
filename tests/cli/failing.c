/* Has the allocation whose number is in ECO32_FAIL_AT answer that there is no memory. */
#include <stdlib.h>

void *__real_malloc(size_t length);
void *__real_calloc(size_t count, size_t length);
void *__real_realloc(void *at, size_t length);
void *__wrap_malloc(size_t length);
void *__wrap_calloc(size_t count, size_t length);
void *__wrap_realloc(void *at, size_t length);

static int fails(void)
{
    static long made;
    const char *fail_at = getenv("ECO32_FAIL_AT");

    made++;
    return fail_at != NULL && strtol(fail_at, NULL, 10) == made;
}

void *__wrap_malloc(size_t length)
{
    return fails() ? NULL : __real_malloc(length);
}

void *__wrap_calloc(size_t count, size_t length)
{
    return fails() ? NULL : __real_calloc(count, length);
}

void *__wrap_realloc(void *at, size_t length)
{
    return fails() ? NULL : __real_realloc(at, length);
}
