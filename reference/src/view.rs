//! Page view: the RAM frame behind a virtual page (document 01, "Runs and
//! views").

use crate::memory::{Width, RAM_BASE};
use crate::mmu::{Access, Found, NO_SLOT};
use crate::processor::Processor;
use crate::run::{ram_refusal, refusal};

const FRAME_LENGTH: usize = 4096;
const LAST_PAGE: u64 = 0xFFFFF;

/// Result of a page view: the slot that served the lookup (document 02, job 2),
/// the frame and its offset in RAM. A refused view has slot 33, offset 0 and an
/// empty part.
#[derive(Clone, Copy, Debug, PartialEq, Eq)]
pub struct PageView<'a> {
    pub refusal: u32,
    pub slot: u32,
    pub offset: usize,
    pub part: &'a [u8],
}

impl PageView<'_> {
    fn refused(refusal: u32) -> Self {
        PageView {
            refusal,
            slot: NO_SLOT,
            offset: 0,
            part: &[],
        }
    }
}

/// Slot and offset in RAM of the frame that a Kernel Mode load of the page's
/// first byte would reach.
fn frame(machine: &Processor, ram: &[u8], page: u64) -> Option<(u32, usize)> {
    if page > LAST_PAGE {
        return None;
    }
    let address = (page as u32) << 12;
    let Found { physical, slot } = machine
        .translate(address, Width::Byte, Access::Load, false)
        .ok()?;
    let offset = physical.checked_sub(RAM_BASE)? as usize;
    // RAM is a whole number of frames long, so the frame ends inside it.
    (offset < ram.len()).then_some((slot, offset))
}

/// Looks up the RAM frame behind a page: refusals 1, 6 and 8.
pub fn page_view<'a>(ram: &'a [u8], machine: &Processor, page: u64) -> PageView<'a> {
    if ram_refusal(ram.len()) != refusal::NONE {
        return PageView::refused(refusal::RAM_LENGTH);
    }
    if !machine.fit() {
        return PageView::refused(refusal::UNFIT_MACHINE);
    }
    match frame(machine, ram, page) {
        Some((slot, offset)) => PageView {
            refusal: refusal::NONE,
            slot,
            offset,
            part: &ram[offset..offset + FRAME_LENGTH],
        },
        None => PageView::refused(refusal::NO_RAM_FRAME),
    }
}
