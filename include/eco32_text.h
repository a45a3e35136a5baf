/*
 * eco32_text.h - words for the refusal numbers and EIDs of eco32.h.
 *
 * These functions are inline, since the library holds proved code alone. They
 * are not proved; they are tested. Any number may be asked for. The text that
 * is answered is constant and lasts as long as the program.
 */
#ifndef ECO32_TEXT_H
#define ECO32_TEXT_H

#include "eco32.h"

/* What a refusal number says: the cause, or "accepted" for 0. */
static inline const char *eco32_refusal_text(uint32_t number)
{
    switch (number) {
    case ECO32_ACCEPTED:
        return "accepted";
    case ECO32_REFUSED_RAM_LENGTH:
        return "RAM length is no multiple of 4,096 from 4,096 to 536,870,912";
    case ECO32_REFUSED_ROM_LENGTH:
        return "ROM length is no multiple of 4,096 from 4,096 to 268,435,456";
    case ECO32_REFUSED_BELT_LENGTH:
        return "belt length is not 1,024";
    case ECO32_REFUSED_RECORD_LENGTH:
        return "a machine or record that is only read is neither 414 nor 424 bytes, "
               "or one that is written is not 424";
    case ECO32_REFUSED_KIND_BYTE:
        return "a kind byte of the record is not in its place";
    case ECO32_REFUSED_UNFIT_MACHINE:
        return "register 0 is not 0, the replacement index outside 4 to 31, the timer's control above 3, "
               "or a bit set that is never kept";
    case ECO32_REFUSED_STEPS:
        return "more than 1,000,000 steps are wanted";
    case ECO32_REFUSED_PAGE:
        return "the page number exceeds FFFFF, the load would fault, "
               "or its physical address is not in RAM";
    case ECO32_REFUSED_CHARGES_LENGTH:
        return "the list of charges is not 130 bytes";
    default:
        return "unknown refusal";
    }
}

/* The name of an exception by its EID, or "no exception" for 32. */
static inline const char *eco32_exception_name(uint32_t eid)
{
    static const char *const names[] = {
        /* 0 to 15 */
        "interrupt channel 0", "interrupt channel 1", "interrupt channel 2", "interrupt channel 3",
        "interrupt channel 4", "interrupt channel 5", "interrupt channel 6", "interrupt channel 7",
        "interrupt channel 8", "interrupt channel 9", "interrupt channel 10", "interrupt channel 11",
        "interrupt channel 12", "interrupt channel 13", "interrupt channel 14", "interrupt channel 15",
        /* 16 to 25 */
        "bus timeout", "illegal instruction", "privileged instruction", "division by zero", "trap",
        "TLB miss", "TLB write", "TLB invalid", "illegal address", "privileged address",
    };

    if (eid == ECO32_NO_EXCEPTION)
        return "no exception";
    return eid < sizeof names / sizeof names[0] ? names[eid] : "unknown exception";
}

#endif
