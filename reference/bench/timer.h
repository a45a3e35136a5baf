/*
 * The plain simulator's timer (manual, chapter 5, section 4; document 02, job 1). No address shows its counter. So only
 * its wraps and the stores to it have to come at their steps, and the ticks between them may be made at once.
 */
#ifndef BENCH_TIMER_H
#define BENCH_TIMER_H

#include <stdint.h>

#define TIMER_CONTROL 0x30000000u
#define TIMER_DIVISOR 0x30000004u

/* Bits of the control. */
#define TIMER_WRAP 1u
#define TIMER_RAISED 3u /* flag and enable */

/* Channel 14. */
#define TIMER_LINE 0x4000u

struct plain_timer {
    uint32_t divisor;
    uint32_t counter;
    uint32_t control;
};

/* Whether a word at this aligned physical address is a register. */
static inline int timer_answers(uint32_t at)
{
    return at == TIMER_CONTROL || at == TIMER_DIVISOR;
}

static inline uint32_t timer_load(const struct plain_timer *timer, uint32_t at)
{
    return at == TIMER_CONTROL ? timer->control : timer->divisor;
}

static inline void timer_store(struct plain_timer *timer, uint32_t at, uint32_t value)
{
    if (at == TIMER_CONTROL)
        timer->control = value & TIMER_RAISED;
    else
        timer->divisor = timer->counter = value;
}

/* Steps up to the one whose tick wraps, that one too. */
static inline uint64_t timer_to_wrap(const struct plain_timer *timer)
{
    if (timer->divisor == 0)
        return UINT64_MAX;
    return timer->counter > 1 ? timer->counter : 1;
}

/* So many ticks, of which none but the last may wrap. */
static inline void timer_ticks(struct plain_timer *timer, uint64_t count)
{
    if (timer->divisor == 0)
        return;
    if (count < timer_to_wrap(timer)) {
        timer->counter -= (uint32_t)count;
    } else {
        timer->counter = timer->divisor;
        timer->control |= TIMER_WRAP;
    }
}

/* The host's lines, and the timer's. */
static inline uint16_t timer_lines(const struct plain_timer *timer, uint16_t lines)
{
    return timer->control == TIMER_RAISED ? (uint16_t)(lines | TIMER_LINE) : lines;
}

#endif
