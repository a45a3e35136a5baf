/* Written by belt_image from reference/src/belt: what a host has to know of the image. */
#ifndef BELT_IMAGE_H
#define BELT_IMAGE_H

#include <stdint.h>

#define BELT_RAM_LENGTH 0x4000
#define BELT_ROM_LENGTH 0x2000
#define BELT_ROUTINE 0x1000
#define BELT_KERNEL_PAGE 0xC0000
#define BELT_OUTCOME 0x0
#define BELT_OUTCOME_DONE 0x1
#define BELT_OUTCOME_ENDED 0x2
#define BELT_LOGGED 0x4
#define BELT_TALLY 0x80
#define BELT_LOG 0x100
#define BELT_COUNT_PAGE 0x80001
#define BELT_REJECTS 0x0
#define BELT_PACKS 0x4
#define BELT_OWN_PAGE 0x30
#define BELT_OWN_LOADED 0x4
#define BELT_REPORT_MATCH 0x1
#define BELT_REPORT_REJECT 0x2
#define BELT_REPORT_DONE 0x3

/* Attempts of the hostile twin: R30 after the fault, its EID, what is tried. */
static const struct attempt {
    uint32_t address;
    uint32_t eid;
    const char *what;
} attempts[] = {
    {0x00010064, 21, "store to a page without an entry, 00001000"},
    {0x0001006C, 23, "store to a page that is not valid, 00040000"},
    {0x00010074, 22, "store to its own read-only code, 00010000"},
    {0x0001007C, 22, "store to the read-only belt, 00020000"},
    {0x00010088, 24, "store a half-word not aligned, 00040001"},
    {0x00010094, 25, "store to the stock routine's page, 80001000"},
    {0x000100A0, 25, "store to direct-mapped RAM, C0001000"},
    {0x000100AC, 25, "store a half-word, C0001002"},
    {0x000100B8, 25, "store a byte, C0001003"},
    {0x000100C4, 24, "store a word not aligned, C0001002"},
    {0x000100D0, 25, "store to the kernel's log, C0000100"},
    {0x000100D8, 21, "load from a page without an entry, 00001000"},
    {0x000100E0, 23, "load from a page that is not valid, 00040000"},
    {0x000100EC, 25, "load from the stock routine's page, 80001000"},
    {0x000100F8, 25, "load from direct-mapped RAM, C0001000"},
    {0x00010104, 25, "load a byte, C0001003"},
    {0x00010110, 24, "load a half-word not aligned, C0001001"},
    {0x00010118, 18, "MVTS to Entry High"},
    {0x00010120, 18, "MVTS to Entry Low"},
    {0x00010124, 18, "MVTS to TLB Index"},
    {0x00010128, 18, "TBWI"},
    {0x0001012C, 18, "TBWR"},
    {0x00010134, 21, "store to the page it wanted, 00050000"},
    {0x00010138, 18, "TBS"},
    {0x0001013C, 18, "TBRI"},
    {0x00010140, 18, "MVFS from PSW"},
    {0x00010144, 18, "MVFS from TLB Index"},
    {0x00010148, 18, "MVFS from Entry High"},
    {0x0001014C, 18, "MVFS from Entry Low"},
    {0x00010150, 18, "MVFS from Bad Address"},
    {0x00010154, 18, "MVTS to PSW, U_C 0"},
    {0x00010158, 18, "MVTS to Bad Address"},
    {0x0001015C, 18, "RFX"},
    {0x00010160, 17, "opcode 1E, no instruction"},
    {0x00010164, 19, "DIV by 0"},
    {0x0001016C, 16, "load a byte of a belt register, 00020000"},
    {0x00010174, 20, "TRAP with a report that is none"},
    {0xE00000DC, 25, "jump to the stock routine, E00000DC"},
};

#endif
