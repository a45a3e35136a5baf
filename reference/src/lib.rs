//! Reference simulator of the ECO32 processor, for differential tests.
//!
//! It follows the ECO32 manual, chapters 2 and 3, the timer of its chapter 5,
//! and documents 01 and 02. Comments name the manual by chapter and section
//! ("manual 2.8.1" is chapter 2, section 8.1), document 01 by its headings and
//! document 02 by its jobs.

#![forbid(unsafe_code)]

pub mod asm;
pub mod belt;
pub mod builder;
pub mod charge;
pub mod exception;
pub mod host;
pub mod listing;
pub mod memory;
pub mod mmu;
pub mod processor;
pub mod record;
pub mod run;
pub mod step;
pub mod timer;
pub mod vectors;
pub mod view;

pub use charge::{Charges, CHARGES_LENGTH, EXCEPTION_ENTRY};
pub use exception::{Fault, NO_EXCEPTION};
pub use memory::{Memory, Width};
pub use mmu::{DIRECT_MAPPED, NO_SLOT};
pub use processor::{Processor, TlbEntry};
pub use record::{read_record, write_record, OLD_RECORD_LENGTH, RECORD_LENGTH};
pub use run::{refusal, Answer, Charged, MAX_STEPS};
pub use step::Stepped;
pub use timer::Timer;
pub use view::{page_view, PageView};
