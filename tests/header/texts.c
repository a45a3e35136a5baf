/* Prints every text of eco32_text.h, each number with its own: first the refusals, then the exceptions. */
#include "eco32_text.h"

#include <stdio.h>
#include <string.h>

static void print_all(const char *(*text)(uint32_t), const char *unknown)
{
    uint32_t number = 0;

    for (; number < 100000; number++)
        if (strcmp(text(number), unknown) != 0)
            printf("| %lu | %s |\n", (unsigned long)number, text(number));
    for (; number != 0; number <<= 1)
        if (strcmp(text(number), unknown) != 0 || strcmp(text(~number), unknown) != 0)
            printf("%lu or its complement is known\n", (unsigned long)number);
}

int main(void)
{
    print_all(eco32_refusal_text, "unknown refusal");
    printf("\n");
    print_all(eco32_exception_name, "unknown exception");
    return 0;
}
