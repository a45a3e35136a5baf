//! The slot of a run's last step by each TLB entry, and of a page view
//! (document 02, job 2).

use crate::bench::{Bench, Counts, Difference};
use crate::systematic::{charged, plain, to_exception};
use crate::world::{Call, Outcome, World};
use eco32_reference::asm::{addi, ldbu, ldw, stb, sth, trap};
use eco32_reference::vectors::scene::Scene;
use eco32_reference::{DIRECT_MAPPED, NO_SLOT};

/// Two pages of neighbouring entries, with a third entry for the first page
/// behind its own, and a program over them.
fn scene(slot: usize) -> Scene {
    let words = [
        ldw(3, 1, 0),
        sth(3, 1, 0x1002),
        addi(3, 3, 1),
        stb(3, 2, 0),
        ldbu(3, 1, 3),
        trap(),
    ];
    let mut scene = Scene::new().set(1, 0x0000_5100).set(2, 0xC000_1000);
    for (n, word) in words.into_iter().enumerate() {
        scene.put(0x2000_0000 + 4 * n as u32, word);
    }
    scene.map(31, 0x0000_5000, 0x0000_1003);
    scene.map(slot, 0x0000_5000, 0x0000_0003);
    scene.map(neighbour(slot), 0x0000_6000, 0x0000_0003);
    scene
}

fn neighbour(slot: usize) -> usize {
    match slot {
        0 => 1,
        _ => slot - 1,
    }
}

/// Steps wanted, and the slot of the last. Behind the trap the service makes
/// the same steps from the second on.
fn expected(slot: usize, to_exception: bool) -> [(u64, u32); 9] {
    let (first, second) = (slot as u32, neighbour(slot) as u32);
    let goes_on = |slot| if to_exception { NO_SLOT } else { slot };
    [
        (0, NO_SLOT),
        (1, first),
        (2, second),
        (3, NO_SLOT),
        (4, DIRECT_MAPPED),
        (5, first),
        (6, NO_SLOT),
        (7, goes_on(second)),
        (9, goes_on(DIRECT_MAPPED)),
    ]
}

pub fn all(counts: &mut Counts) -> Result<(), Difference> {
    for slot in 0..32 {
        let scene = scene(slot);
        for kind in [false, true] {
            for (wanted, expected) in expected(slot, kind) {
                let run = if kind {
                    to_exception(wanted)
                } else {
                    plain(wanted)
                };
                for run in [run, charged(run)] {
                    let mut bench = Bench::new(World::of(&scene));
                    let outcome = bench.expect(Call::Run(run), 0, &mut counts.calls)?;
                    answers(outcome, expected)?;
                }
            }
        }
        let mut bench = Bench::new(World::of(&scene));
        let pages = [(5, slot), (6, neighbour(slot)), (0xC0001, 32), (7, 33)];
        for (page, expected) in pages {
            let outcome = bench.call(Call::PageView(page), &mut counts.calls)?;
            answers(outcome, expected as u32)?;
        }
    }
    Ok(())
}

fn answers(outcome: Outcome, expected: u32) -> Result<(), Difference> {
    let slot = match outcome {
        Outcome::Answer(answer) => answer.slot,
        Outcome::Charged(charged) => charged.answer.slot,
        Outcome::View(view) => view.slot,
        Outcome::Number(_) => NO_SLOT,
    };
    if slot != expected {
        return Err(format!("{outcome:?} instead of slot {expected}"));
    }
    Ok(())
}
