/* The week, a day at a time, in plain words. */
#include "belt.h"

#include "eco32_text.h"

#include <inttypes.h>
#include <stdio.h>
#include <string.h>

#define MOST_STEPS_TO_START 50000
#define MOST_STEPS_TO_REPORT 50000
#define MOST_EXCEPTIONS 1000 /* the firmware takes 256 packs and logs 240 faults */
#define USER_MODE 0x04000000 /* bit 26 of the PSW */
#define ENTRIES 32
#define VALID 1
#define WRITABLE 2

/* Frames, each once. */
struct frames {
    uint32_t number[ENTRIES];
    int count;
};

void monday(const struct cell *c, const char *rom, const char *ram)
{
    printf("Monday: the firmware comes as two images. Their checksums are CRC-32, as gzip has it.\n");
    printf("  ROM image %s: %zu bytes, checksum %08" PRIX32 "\n", rom, sizeof c->rom, crc32(c->rom, sizeof c->rom));
    printf("  RAM image %s: %zu bytes, checksum %08" PRIX32 "\n", ram, sizeof c->ram, crc32(c->ram, sizeof c->ram));
    printf("  In the ROM image the sealed barcode routine has the last %zu bytes, checksum %08" PRIX32 "\n",
           sizeof c->rom - BELT_ROUTINE, crc32(c->rom + BELT_ROUTINE, sizeof c->rom - BELT_ROUTINE));
}

void tuesday(struct cell *c)
{
    uint32_t eid = ECO32_NO_EXCEPTION;
    reset(c);
    printf("\nTuesday: the model starts the firmware, from reset, at address %08" PRIX32 ".\n", pc(c));
    while ((special(c, 0) & USER_MODE) == 0 && eid == ECO32_NO_EXCEPTION && c->steps < MOST_STEPS_TO_START)
        eid = run_on(c, 1);
    need(eid == ECO32_NO_EXCEPTION, "the firmware starts without a fault");
    need((special(c, 0) & USER_MODE) != 0, "the firmware starts the sealed routine");
    printf("  After %" PRIu64 " steps without a fault it hands over to the sealed routine, in User Mode.\n", c->steps);
}

static int has(const struct frames *f, uint32_t number)
{
    for (int n = 0; n < f->count; n++)
        if (f->number[n] == number)
            return 1;
    return 0;
}

static void add(struct frames *f, uint32_t number)
{
    if (!has(f, number))
        f->number[f->count++] = number;
}

static void tell_frames(const char *what, const struct frames *f)
{
    printf("  %s:", what);
    for (int n = 0; n < f->count; n++)
        printf("%s %05" PRIX32, n == 0 ? "" : ",", f->number[n]);
    printf("%s\n", f->count == 0 ? " none" : "");
}

static const char *place(uint32_t frame)
{
    if (frame < BELT_RAM_LENGTH / ECO32_FRAME_LENGTH)
        return "in RAM";
    if (frame >= 0x20000 && frame < 0x20000 + BELT_ROM_LENGTH / ECO32_FRAME_LENGTH)
        return "in ROM";
    if (frame == ECO32_TIMER_CONTROL / ECO32_FRAME_LENGTH)
        return "timer";
    return frame == 0x30500 ? "belt registers" : "nothing is there";
}

/* Of two entries with one page number the lower is used. */
static int is_used(const struct cell *c, int entry)
{
    for (int n = 0; n < entry; n++)
        if (tlb_high(c, n) == tlb_high(c, entry))
            return 0;
    return 1;
}

/* The frames behind the pages below 80000, as the TLB has them. */
static void reach(const struct cell *c, struct frames *read, struct frames *written)
{
    for (int n = 0; n < ENTRIES; n++) {
        uint32_t low = tlb_low(c, n), frame = low >> 12;
        if (tlb_high(c, n) >= 0x80000000 || !is_used(c, n))
            continue;
        printf("  page %05" PRIX32 ", frame %05" PRIX32 " (%s): %s\n", tlb_high(c, n) >> 12, frame, place(frame),
               (low & VALID) == 0 ? "closed" : (low & WRITABLE) == 0 ? "read only" : "read and write");
        if ((low & VALID) != 0)
            add(read, frame);
        if ((low & VALID) != 0 && (low & WRITABLE) != 0)
            add(written, frame);
    }
}

void wednesday(const struct cell *c)
{
    struct frames read = {{0}, 0}, written = {{0}, 0};
    uint32_t count = (uint32_t)((page(c, BELT_COUNT_PAGE) - c->ram) / ECO32_FRAME_LENGTH);
    printf("\nWednesday: which memory the sealed routine reaches. Its pages, and the frame of memory behind each,\n"
           "read from the processor's table of pages (TLB):\n");
    reach(c, &read, &written);
    tell_frames("frames that it can read", &read);
    tell_frames("frames that it can write", &written);
    printf("  The count of rejected packs is kept in frame %05" PRIX32 ". The routine %s.\n", count,
           has(&written, count) ? "CAN WRITE IT" : has(&read, count) ? "can read it, and cannot write it"
                                                                    : "can neither read nor write it");
    need(!has(&written, count), "the sealed routine cannot write the frame of the count");
}

/* A report of the routine: the next pack, or that it is done. */
static void tell_report(const struct cell *c, struct count *reported, int state)
{
    uint32_t report = reg(c, 4);
    if (state)
        printf("%6" PRIu64, c->steps);
    if (report == BELT_REPORT_DONE) {
        printf("%s", state ? "  the routine is done\n" : "");
        return;
    }
    need(reported->packs < c->packs, "the routine reports no more packs than lie on the belt");
    printf("  pack %3" PRIu32 ", code %10" PRIu32 ": %s\n", reported->packs + 1, word(c->belt + 4 * reported->packs),
           report == BELT_REPORT_MATCH ? "accepted" : "REJECTED, no match");
    reported->packs++;
    reported->rejected += report == BELT_REPORT_REJECT;
}

static const char *times(uint32_t count) { return count == 1 ? "time" : "times"; }

/* Runs until the firmware stands at its last jump, which goes to itself. */
static struct count run_packs(struct cell *c, int state)
{
    struct count reported = {0, 0};
    uint32_t eid, outcome, exceptions = 0;
    c->stopped = 0;
    while ((eid = run_on(c, MOST_STEPS_TO_REPORT)) != ECO32_NO_EXCEPTION) {
        need(exceptions++ < MOST_EXCEPTIONS, "the firmware comes to its end");
        if (reports(c, eid)) {
            tell_report(c, &reported, state);
        } else {
            if (state)
                printf("%6" PRIu64, c->steps);
            printf("  the routine tried what it may not do, and was stopped: %s (%" PRIu32 ")\n", eco32_exception_name(eid), eid);
            c->stopped++;
        }
    }
    outcome = word(page(c, BELT_KERNEL_PAGE) + BELT_OUTCOME);
    need(outcome != 0, "the firmware comes to its end");
    if (c->stopped == 0)
        printf("  The routine did nothing that it may not do.\n");
    else
        printf("  The routine was stopped %" PRIu32 " %s. %s\n", c->stopped, times(c->stopped),
               outcome == BELT_OUTCOME_ENDED ? "Then the firmware ended it." : "Then it went on to its end.");
    return reported;
}

void thursday(struct cell *c, int state)
{
    struct cell before = *c;
    struct count reported, count;
    printf("\nThursday: the packs pass, and the routine looks up the code of each.\n%s", state ? "  step\n" : "");
    reported = run_packs(c, state);
    count = counted(c);
    /* Checked first: a count that misses packs has no number of accepted ones. */
    need(count.packs == c->packs && reported.packs == c->packs, "every pack on the belt was counted");
    need(count.rejected == reported.rejected, "every rejected pack was counted");
    printf("  %" PRIu32 " packs were on the belt. The firmware counted %" PRIu32 ": %" PRIu32 " accepted, %" PRIu32
           " rejected.\n", c->packs, count.packs, count.packs - count.rejected, count.rejected);
    for (int n = 0; n < ENTRIES; n++)
        need(tlb_high(c, n) == tlb_high(&before, n) && tlb_low(c, n) == tlb_low(&before, n),
             "the table of pages is still Wednesday's");
    printf("  The table of pages is still Wednesday's.\n");
    if (state)
        tell_record(c);
}

int friday(const struct cell *c, struct count cell)
{
    struct count model = counted(c);
    int equal = model.packs == cell.packs && model.rejected == cell.rejected;
    printf("\nFriday: before release the model's count and the cell's count are read against each other.\n");
    printf("Release note: the model rejected %" PRIu32 " of %" PRIu32 " packs, the cell rejected %" PRIu32 " of %" PRIu32
           " packs: %s.", model.rejected, model.packs, cell.rejected, cell.packs,
           equal ? "equal" : "DIFFERENT, not for release");
    /* Equal counts alone would hide a routine that tried to get at them. */
    if (c->stopped != 0)
        printf(" The sealed routine was stopped %" PRIu32 " %s: it tried what it may not do.", c->stopped, times(c->stopped));
    printf("\n");
    return equal;
}
