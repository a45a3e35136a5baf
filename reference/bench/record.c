/* The plain simulator: the machine at reset, from a record and to one. */
#include "plain.h"

#include <string.h>

static uint32_t get(const uint8_t **at)
{
    const uint8_t *p = *at;

    *at += 4;
    return (uint32_t)p[0] << 24 | (uint32_t)p[1] << 16 | (uint32_t)p[2] << 8 | p[3];
}

static void put(uint8_t **at, uint32_t value)
{
    uint8_t *p = *at;

    p[0] = (uint8_t)(value >> 24);
    p[1] = (uint8_t)(value >> 16);
    p[2] = (uint8_t)(value >> 8);
    p[3] = (uint8_t)value;
    *at += 4;
}

void plain_reset(struct plain_machine *m)
{
    int n;

    memset(m, 0, sizeof *m);
    m->pc = 0xE0000000;
    for (n = 0; n < 32; n++)
        m->tlb[n].high = 0xC0000000;
    m->replacement = 4;
}

void plain_read(struct plain_machine *m, const uint8_t *record)
{
    const uint8_t *at = record + 1; /* a kind byte stands before each item */
    int n;

    for (n = 0; n < 32; n++)
        m->r[n] = get(&at);
    at++;
    m->pc = get(&at);
    at++;
    for (n = 0; n < SPECIALS; n++)
        m->special[n] = get(&at);
    at++;
    for (n = 0; n < 32; n++) {
        m->tlb[n].high = get(&at);
        m->tlb[n].low = get(&at);
    }
    at++;
    m->replacement = *at++;
    at++;
    m->timer.divisor = get(&at);
    m->timer.counter = get(&at);
    m->timer.control = *at;
}

void plain_write(const struct plain_machine *m, uint8_t *record)
{
    uint8_t *at = record;
    int n;

    *at++ = 1;
    for (n = 0; n < 32; n++)
        put(&at, m->r[n]);
    *at++ = 2;
    put(&at, m->pc);
    *at++ = 3;
    for (n = 0; n < SPECIALS; n++)
        put(&at, m->special[n]);
    *at++ = 4;
    for (n = 0; n < 32; n++) {
        put(&at, m->tlb[n].high);
        put(&at, m->tlb[n].low);
    }
    *at++ = 5;
    *at++ = (uint8_t)m->replacement;
    *at++ = 6;
    put(&at, m->timer.divisor);
    put(&at, m->timer.counter);
    *at = (uint8_t)m->timer.control;
}
