//! The library and the simulator side by side on the same calls.

use crate::charges;
use crate::watch;
use crate::world::{Call, Lent, Outcome, Run, World};
use eco32_reference::host::View;
use eco32_reference::vectors::observe::Observer;
use eco32_reference::vectors::tally::Tally;
use eco32_reference::{Answer, OLD_RECORD_LENGTH};

/// What differs, in words; the end of the test.
pub type Difference = String;

/// Most RAM that is copied to make a run again.
const COPIED: usize = 1 << 20;

pub struct Bench {
    pub library: World,
    pub simulator: World,
}

impl Bench {
    pub fn new(world: World) -> Bench {
        Bench {
            library: world.clone(),
            simulator: world,
        }
    }

    /// Lends both sides a list of charges.
    pub fn lend(&mut self, charges: &[u8]) {
        self.library.charges = Lent::of(charges);
        self.simulator.charges = Lent::of(charges);
    }

    /// Makes one call on both sides and compares the answers and all bytes. A
    /// charged run is made without charges too, and held to that.
    pub fn call(&mut self, call: Call, tally: &mut Tally) -> Result<Outcome, Difference> {
        let without = match call {
            Call::Run(run) if run.charged => self.without_charges(run, tally)?,
            _ => None,
        };
        let outcome = self.on_both(call)?;
        if let Outcome::Charged(charged) = outcome {
            charges::holds(charged, &self.library, without)
                .map_err(|what| format!("{call:?} with {outcome:?}: {what}"))?;
        }
        self.count(call, outcome, tally);
        Ok(outcome)
    }

    /// The same run without charges, on copies: its answer, and the library's
    /// world after it. The largest memory is not copied.
    fn without_charges(
        &self,
        run: Run,
        tally: &mut Tally,
    ) -> Result<Option<(Answer, World)>, Difference> {
        if self.library.ram.bytes().len() > COPIED {
            return Ok(None);
        }
        let mut copy = Bench::new(self.library.clone());
        let call = Call::Run(Run {
            charged: false,
            ..run
        });
        let outcome = copy.call(call, tally)?;
        Ok(outcome.answer().map(|answer| (answer, copy.library)))
    }

    fn on_both(&mut self, call: Call) -> Result<Outcome, Difference> {
        watch::call();
        let wanted = call.simulator(&mut self.simulator);
        let found = call.library(&mut self.library);
        if found != wanted {
            return Err(format!(
                "{call:?}: the library answers {found:?}, the simulator {wanted:?}"
            ));
        }
        let names = ["the library has", "the simulator"];
        if let Some(what) = self.library.difference(&self.simulator, names) {
            return Err(format!("{call:?} with {wanted:?}: {what}"));
        }
        if let Some(part) = self.library.overrun() {
            return Err(format!("{call:?}: bytes beside the {part} changed"));
        }
        Ok(wanted)
    }

    fn count(&self, call: Call, outcome: Outcome, tally: &mut Tally) {
        tally.add("call", call.name());
        let item = format!("{} {}", call.name(), outcome.refusal());
        tally.add("refusal (0: none)", item);
        let (read, written) = call.lengths(&self.library);
        if read == Some(OLD_RECORD_LENGTH) && outcome.refusal() == 0 {
            tally.add("accepted 414 bytes read", call.name());
        }
        if written == Some(OLD_RECORD_LENGTH) && outcome.refusal() == 4 {
            tally.add("refused 414 bytes written", call.name());
        }
        count_slot(call, outcome, tally);
        if let Outcome::Charged(charged) = outcome {
            charges::count(call, charged, tally);
        }
    }

    /// The same where the outcome is known beforehand, and a refusal has to
    /// leave every byte as it was.
    pub fn expect(
        &mut self,
        call: Call,
        refusal: u32,
        tally: &mut Tally,
    ) -> Result<Outcome, Difference> {
        let before = self.library.clone();
        let outcome = self.call(call, tally)?;
        if outcome.refusal() != refusal {
            return Err(format!(
                "{call:?}: {outcome:?} instead of refusal {refusal}"
            ));
        }
        if refusal != 0 {
            let names = ["before it", "after it"];
            if let Some(what) = before.difference(&self.library, names) {
                return Err(format!("{call:?} was refused, yet {what}"));
            }
        }
        Ok(outcome)
    }
}

/// The slot of an answer (document 02, job 2).
fn count_slot(call: Call, outcome: Outcome, tally: &mut Tally) {
    let name = call.name();
    match (outcome, outcome.answer()) {
        (_, Some(answer)) if answer.steps > 0 => {
            let heading = match answer.steps {
                1 => "slot of one step",
                _ => "slot of the last of several steps",
            };
            tally.add(heading, format!("{name} {}", answer.slot));
        }
        (_, Some(Answer { refusal, slot, .. })) => {
            let why = if refusal == 0 { "0 steps" } else { "refused" };
            tally.add("slot without an access", format!("{name} {why} {slot}"));
        }
        (Outcome::View(view), _) if view.refusal == 0 => {
            tally.add("slot of a page view", view.slot.to_string());
        }
        (Outcome::View(View { slot, .. }), _) => {
            tally.add("slot without an access", format!("{name} refused {slot}"));
        }
        _ => {}
    }
}

/// Counts of the whole test.
#[derive(Default)]
pub struct Counts {
    /// What single steps cover.
    pub steps: Observer,
    /// What calls cover.
    pub calls: Tally,
}
