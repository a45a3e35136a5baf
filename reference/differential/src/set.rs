//! The cases of the long set of vectors, step by step on the library, as
//! charged runs, which are held to those without charges.

use crate::bench::{Bench, Counts, Difference};
use crate::charges;
use crate::world::{Call, Outcome, Run, World};
use eco32_reference::vectors::scene::Scene;
use eco32_reference::vectors::Sink;
use eco32_reference::Charged;

pub struct SetTest<'a> {
    pub counts: &'a mut Counts,
    pub cases: u64,
    /// The first difference; later cases are left out.
    pub found: Option<Difference>,
}

impl SetTest<'_> {
    fn steps(&mut self, start: &Scene, lines: &[u16]) -> Result<(), Difference> {
        let mut scene = start.clone();
        let mut bench = Bench::new(World::of(start));
        self.counts.steps.begin(lines.len());
        for (n, &lines) in lines.iter().enumerate() {
            let stepped = self.counts.steps.step(&mut scene, lines);
            let run = Run {
                to_exception: true,
                charged: true,
                wanted: 1,
                lines,
            };
            let outcome = bench
                .call(Call::Run(run), &mut self.counts.calls)
                .map_err(|what| format!("step {n}: {what}"))?;
            let Outcome::Charged(Charged { answer, charge }) = outcome else {
                return Err("no answer of a step".to_string());
            };
            let cost = charges::cost(bench.library.charges.bytes(), stepped);
            if (answer.eid, answer.slot, charge) != (stepped.eid, stepped.slot, cost) {
                return Err(format!("step {n}: {outcome:?}, not {stepped:?}"));
            }
        }
        Ok(())
    }
}

impl Sink for SetTest<'_> {
    fn case(&mut self, start: &Scene, lines: &[u16]) {
        if self.found.is_some() {
            return;
        }
        let number = self.cases;
        self.cases += 1;
        if let Err(what) = self.steps(start, lines) {
            self.found = Some(format!("case {number} of the long set: {what}"));
        }
    }
}
