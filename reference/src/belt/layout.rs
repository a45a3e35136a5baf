//! Where the belt image keeps what: pages, frames, and words in them.

/// RAM that the host lends: the kernel's frame, the count's, the routine's,
/// and one that nobody uses.
pub const RAM_FRAMES: u32 = 4;
/// ROM: the kernel's frame, then the routine's.
pub const ROM_LENGTH: usize = 8192;
pub const FRAME_LENGTH: usize = 4096;

/// First address of the direct-mapped RAM: the kernel's frame.
pub const KERNEL_FRAME_AT: u32 = 0xC000_0000;
/// First address behind the frames that the kernel clears.
pub const CLEARED_TO: u32 = 0xC000_3000;

// Words of the kernel's frame.
/// 0 while the routine runs, then why it ended.
pub const OUTCOME: u32 = 0x000;
/// Entries in the log.
pub const LOGGED: u32 = 0x004;
/// A word for each EID: how often it came.
pub const TALLY: u32 = 0x080;
/// The log: for each fault EID, instruction's address, Bad Address, Entry High.
pub const LOG: u32 = 0x100;
/// Entries that fit between the log's first word and the end of the frame.
pub const MOST_LOGGED: u32 = (FRAME_LENGTH as u32 - LOG) / 16;

/// Outcomes: the routine said so, or the kernel ended it.
pub const OUTCOME_DONE: u32 = 1;
pub const OUTCOME_ENDED: u32 = 2;

/// The count's frame, and the kernel page through which the stock routine
/// reaches it.
pub const COUNT_FRAME: u32 = 0x0000_1000;
pub const COUNT_PAGE: u32 = 0x8000_1000;
/// Words of the count's frame.
pub const REJECTS: u32 = 0;
pub const PACKS: u32 = 4;

/// User pages, by the address of their first byte.
pub const ROUTINE_PAGE: u32 = 0x0001_0000;
pub const BELT_PAGE: u32 = 0x0002_0000;
pub const OWN_PAGE: u32 = 0x0003_0000;
/// A page whose entry names the count's frame, its valid bit clear.
pub const INVALID_PAGE: u32 = 0x0004_0000;

/// Words of the routine's own page: packs read, and what the hostile twin loaded.
pub const OWN_PACKS: u32 = 0;
pub const OWN_LOADED: u32 = 4;

const VALID: u32 = 1;
const WRITE: u32 = 2;

/// The TLB: for each entry high word, low word, and what it is for.
pub const MAPPINGS: [(u32, u32, &str); 5] = [
    (ROUTINE_PAGE, 0x2000_1000 | VALID, "the routine, read-only"),
    (BELT_PAGE, 0x3050_0000 | VALID, "belt registers, read-only"),
    (
        OWN_PAGE,
        0x0000_2000 | WRITE | VALID,
        "the routine's words, writable",
    ),
    (
        COUNT_PAGE,
        COUNT_FRAME | WRITE | VALID,
        "the count's frame, for the kernel",
    ),
    (
        INVALID_PAGE,
        COUNT_FRAME | WRITE,
        "the count's frame, not valid",
    ),
];

/// What a trap reports, in this register.
pub const REPORT: u32 = 4;
pub const REPORT_MATCH: u32 = 1;
pub const REPORT_REJECT: u32 = 2;
pub const REPORT_DONE: u32 = 3;

/// Numbers of the special registers (manual 2.6).
pub const PSW: u32 = 0;
pub const TLB_INDEX: u32 = 1;
pub const ENTRY_HIGH: u32 = 2;
pub const ENTRY_LOW: u32 = 3;
pub const BAD_ADDRESS: u32 = 4;
