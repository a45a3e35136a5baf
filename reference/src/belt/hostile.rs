//! The hostile twin of the barcode routine. It sorts the packs as the other
//! does, so that there is a count; then it tries to write it, to read it, and
//! to take the kernel's rights. Each attempt ends in the fault that the manual
//! names.

use super::barcode::{known_codes, sort_packs};
use super::layout::*;
use crate::asm::*;
use crate::builder::{Builder, Routine};

/// An instruction that has to fault.
#[derive(Clone, Debug, PartialEq, Eq)]
pub struct Attempt {
    /// R30 after the fault.
    pub address: u32,
    pub eid: u32,
    /// Bad Address after the fault, where it names one.
    pub bad_address: Option<u32>,
    pub what: String,
}

/// Address of what is tried.
const AT: u32 = 8;
/// What would be written.
const FALSE_COUNT: u32 = 9;
/// What loads and MVFS would fill.
const LOADED: u32 = 11;
const OWN: u32 = 12;

/// Page that the twin tries to map to the count's frame.
const WANTED_PAGE: u32 = 0x0005_0000;
/// First direct-mapped address of the count's frame.
const COUNT_DIRECT: u32 = KERNEL_FRAME_AT + COUNT_FRAME;
/// An opcode that names no instruction (manual chapter 3).
const ILLEGAL: u32 = 0x1E << 26;

struct Twin {
    b: Builder,
    attempts: Vec<Attempt>,
}

/// The twin, and its attempts in order. `stock` is the address of the stock
/// routine.
pub fn hostile(stock: u32) -> Result<(Routine, Vec<Attempt>), String> {
    let mut twin = Twin {
        b: Builder::new(ROUTINE_PAGE),
        attempts: Vec::new(),
    };
    sort_packs(&mut twin.b);
    twin.prepare();
    twin.write_through_user_pages();
    twin.write_through_kernel_addresses();
    twin.read_the_count();
    twin.write_the_tlb();
    twin.read_special_registers();
    twin.take_kernel_mode();
    twin.other_faults();
    twin.jump_to_the_kernel(stock);
    known_codes(&mut twin.b);
    Ok((twin.b.finish()?, twin.attempts))
}

impl Twin {
    fn expect(&mut self, eid: u32, bad_address: Option<u32>, what: &str) {
        self.attempts.push(Attempt {
            address: self.b.here(),
            eid,
            bad_address,
            what: what.to_string(),
        });
    }

    /// One instruction that has to end in a fault.
    fn attempt(&mut self, eid: u32, word: u32, what: &str) {
        self.expect(eid, None, what);
        self.b.op(word, &format!("{eid}: {what}"));
    }

    /// A load or store at an address, by R8.
    fn access(&mut self, eid: u32, address: u32, word: u32, what: &str) {
        self.b.constant(AT, address, "");
        let what = format!("{what} {address:08X}");
        self.expect(eid, (eid >= 21).then_some(address), &what);
        self.b.op(word, &format!("{eid}: {what}"));
    }

    fn prepare(&mut self) {
        self.b
            .heading("Hostile twin: what it would write, and what it has read");
        self.b.constant(FALSE_COUNT, 0, "no pack was rejected");
        self.b.op(addi(LOADED, 0, -1), "FFFFFFFF: nothing yet");
    }

    fn write_through_user_pages(&mut self) {
        self.b
            .heading("Hostile twin: write the count through user pages");
        let store = stw(FALSE_COUNT, AT, 0);
        self.access(21, COUNT_FRAME, store, "store to a page without an entry,");
        self.access(
            23,
            INVALID_PAGE,
            store,
            "store to a page that is not valid,",
        );
        self.access(22, ROUTINE_PAGE, store, "store to its own read-only code,");
        self.access(22, BELT_PAGE, store, "store to the read-only belt,");
        let half = sth(FALSE_COUNT, AT, 0);
        self.access(24, INVALID_PAGE + 1, half, "store a half-word not aligned,");
    }

    fn write_through_kernel_addresses(&mut self) {
        self.b
            .heading("Hostile twin: write the count through kernel addresses");
        let word = stw(FALSE_COUNT, AT, 0);
        self.access(25, COUNT_PAGE, word, "store to the stock routine's page,");
        self.access(25, COUNT_DIRECT, word, "store to direct-mapped RAM,");
        let half = sth(FALSE_COUNT, AT, 0);
        self.access(25, COUNT_DIRECT + 2, half, "store a half-word,");
        let byte = stb(FALSE_COUNT, AT, 0);
        self.access(25, COUNT_DIRECT + 3, byte, "store a byte,");
        // Alignment is tested before privilege.
        self.access(24, COUNT_DIRECT + 2, word, "store a word not aligned,");
        let log = KERNEL_FRAME_AT + LOG;
        self.access(25, log, word, "store to the kernel's log,");
    }

    fn read_the_count(&mut self) {
        self.b.heading("Hostile twin: read the count");
        let word = ldw(LOADED, AT, 0);
        self.access(21, COUNT_FRAME, word, "load from a page without an entry,");
        self.access(
            23,
            INVALID_PAGE,
            word,
            "load from a page that is not valid,",
        );
        self.access(25, COUNT_PAGE, word, "load from the stock routine's page,");
        self.access(25, COUNT_DIRECT, word, "load from direct-mapped RAM,");
        let byte = ldbu(LOADED, AT, 0);
        self.access(25, COUNT_DIRECT + 3, byte, "load a byte,");
        let half = ldh(LOADED, AT, 0);
        self.access(24, COUNT_DIRECT + 1, half, "load a half-word not aligned,");
    }

    /// The words that would map page 00050 to the count's frame, writable.
    fn write_the_tlb(&mut self) {
        self.b
            .heading("Hostile twin: map a page of its own to the count's frame");
        self.b.constant(AT, WANTED_PAGE, "");
        self.attempt(18, mvts(AT, ENTRY_HIGH), "MVTS to Entry High");
        self.b.constant(AT, COUNT_FRAME | 3, "valid and writable");
        self.attempt(18, mvts(AT, ENTRY_LOW), "MVTS to Entry Low");
        self.attempt(18, mvts(0, TLB_INDEX), "MVTS to TLB Index");
        self.attempt(18, tbwi(), "TBWI");
        self.attempt(18, tbwr(), "TBWR");
        let store = stw(FALSE_COUNT, AT, 0);
        self.access(21, WANTED_PAGE, store, "store to the page it wanted,");
        self.attempt(18, tbs(), "TBS");
        self.attempt(18, tbri(), "TBRI");
    }

    fn read_special_registers(&mut self) {
        self.b.heading("Hostile twin: read the special registers");
        self.attempt(18, mvfs(LOADED, PSW), "MVFS from PSW");
        self.attempt(18, mvfs(LOADED, TLB_INDEX), "MVFS from TLB Index");
        self.attempt(18, mvfs(LOADED, ENTRY_HIGH), "MVFS from Entry High");
        self.attempt(18, mvfs(LOADED, ENTRY_LOW), "MVFS from Entry Low");
        self.attempt(18, mvfs(LOADED, BAD_ADDRESS), "MVFS from Bad Address");
    }

    fn take_kernel_mode(&mut self) {
        self.b.heading("Hostile twin: take Kernel Mode");
        self.attempt(18, mvts(0, PSW), "MVTS to PSW, U_C 0");
        self.attempt(18, mvts(0, BAD_ADDRESS), "MVTS to Bad Address");
        self.attempt(18, rfx(), "RFX");
    }

    fn other_faults(&mut self) {
        self.b
            .heading("Hostile twin: the faults that are left; what it loaded");
        self.attempt(17, ILLEGAL, "opcode 1E, no instruction");
        self.attempt(19, div(LOADED, LOADED, 0), "DIV by 0");
        let byte = ldbu(LOADED, AT, 0);
        self.access(16, BELT_PAGE, byte, "load a byte of a belt register,");
        self.b.constant(REPORT, 99, "");
        self.attempt(20, trap(), "TRAP with a report that is none");
        self.b.constant(OWN, OWN_PAGE, "");
        self.b
            .op(stw(LOADED, OWN, OWN_LOADED as i32), "still FFFFFFFF");
    }

    /// The fetch faults, so R30 is the jump's target and there is no next
    /// instruction: the kernel ends the twin here.
    fn jump_to_the_kernel(&mut self, stock: u32) {
        self.b.heading("Hostile twin: jump to the stock routine");
        self.b.constant(REPORT, REPORT_REJECT, "");
        self.b.constant(AT, stock, "");
        self.attempts.push(Attempt {
            address: stock,
            eid: 25,
            bad_address: Some(stock),
            what: format!("jump to the stock routine, {stock:08X}"),
        });
        self.b
            .op(jalr(AT), "25: at the fetch; the kernel ends the routine");
    }
}
