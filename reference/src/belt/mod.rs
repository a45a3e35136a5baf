//! The belt's image: a kernel that counts rejected packs, a barcode routine in
//! User Mode, and the routine's hostile twin. `examples/belt` holds the files
//! made of it.

pub mod barcode;
pub mod hostile;
pub mod kernel;
pub mod layout;

use crate::builder::Routine;
use crate::listing::listing;
use hostile::Attempt;
use layout::*;

/// Both images: the same kernel, and one of the two routines.
pub struct Images {
    pub kernel: Routine,
    pub barcode: Routine,
    pub hostile: Routine,
    pub attempts: Vec<Attempt>,
}

/// ROM with the kernel and a routine, a frame each.
pub fn rom(kernel: &Routine, routine: &Routine) -> Result<Vec<u8>, String> {
    let mut bytes = kernel.bytes(FRAME_LENGTH)?;
    bytes.extend(routine.bytes(FRAME_LENGTH)?);
    Ok(bytes)
}

/// The RAM image of both. The firmware clears what it uses, so anything may
/// stand there.
pub fn ram() -> Vec<u8> {
    vec![0xEE; RAM_FRAMES as usize * FRAME_LENGTH]
}

impl Images {
    pub fn build() -> Result<Images, String> {
        let kernel = kernel::kernel()?;
        let stock = *kernel.labels.get("stock").ok_or("no stock routine")?;
        let (hostile, attempts) = hostile::hostile(stock)?;
        Ok(Images {
            kernel,
            barcode: barcode::barcode()?,
            hostile,
            attempts,
        })
    }

    /// The example's files: name and contents.
    pub fn files(&self) -> Result<Vec<(&'static str, Vec<u8>)>, String> {
        Ok(vec![
            ("belt.rom", rom(&self.kernel, &self.barcode)?),
            ("belt_hostile.rom", rom(&self.kernel, &self.hostile)?),
            ("belt.ram", ram()),
            ("belt.lst", self.listing().into_bytes()),
            ("image.h", self.header().into_bytes()),
        ])
    }

    fn listing(&self) -> String {
        let parts = [
            ("Both images, first frame of ROM", &self.kernel),
            ("belt.rom, second frame of ROM", &self.barcode),
            ("belt_hostile.rom, second frame of ROM", &self.hostile),
        ];
        let mut all = String::from(
            "; Written by belt_image from reference/src/belt.\n\
             ; Virtual address, word, instruction; numbers hexadecimal. R8 is register 8.\n",
        );
        for (title, routine) in parts {
            all += &format!("\n;;; {title}\n{}", listing(routine));
        }
        all
    }

    /// What the host has to know of the image, for C.
    fn header(&self) -> String {
        let mut all = String::from(
            "/* Written by belt_image from reference/src/belt: what a host has to know of the image. */\n\
             #ifndef BELT_IMAGE_H\n#define BELT_IMAGE_H\n\n#include <stdint.h>\n\n",
        );
        for (name, value) in constants() {
            all += &format!("#define BELT_{name} 0x{value:X}\n");
        }
        all +=
            "\n/* Attempts of the hostile twin: R30 after the fault, its EID, what is tried. */\n\
                static const struct attempt {\n    \
                uint32_t address;\n    uint32_t eid;\n    const char *what;\n\
                } attempts[] = {\n";
        for attempt in &self.attempts {
            let Attempt { address, eid, .. } = attempt;
            all += &format!("    {{0x{address:08X}, {eid}, \"{}\"}},\n", attempt.what);
        }
        all + "};\n\n#endif\n"
    }
}

fn constants() -> [(&'static str, u32); 18] {
    [
        ("RAM_LENGTH", RAM_FRAMES * FRAME_LENGTH as u32),
        ("ROM_LENGTH", ROM_LENGTH as u32),
        ("ROUTINE", FRAME_LENGTH as u32),
        ("KERNEL_PAGE", KERNEL_FRAME_AT >> 12),
        ("OUTCOME", OUTCOME),
        ("OUTCOME_DONE", OUTCOME_DONE),
        ("OUTCOME_ENDED", OUTCOME_ENDED),
        ("LOGGED", LOGGED),
        ("TALLY", TALLY),
        ("LOG", LOG),
        ("COUNT_PAGE", COUNT_PAGE >> 12),
        ("REJECTS", REJECTS),
        ("PACKS", PACKS),
        ("OWN_PAGE", OWN_PAGE >> 12),
        ("OWN_LOADED", OWN_LOADED),
        ("REPORT_MATCH", REPORT_MATCH),
        ("REPORT_REJECT", REPORT_REJECT),
        ("REPORT_DONE", REPORT_DONE),
    ]
}
