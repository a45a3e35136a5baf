//! What the test must have covered beside the steps of the long set.

use crate::charges::{KINDS, NEVER_COMPLETED};
use crate::isolation::PARTS;
use eco32_reference::vectors::tally::Required;

/// Names of the calls that make runs.
const RUNS: [&str; 4] = [
    "run",
    "run_to_exception",
    "run_charged",
    "run_to_exception_charged",
];

#[derive(Default)]
struct List(Vec<Required>);

impl List {
    fn add(&mut self, heading: &'static str, least: u64, item: impl Into<String>) {
        self.0.push(Required {
            heading,
            item: item.into(),
            least,
        });
    }

    fn all(&mut self, heading: &'static str, least: u64, items: &[&str]) {
        for &item in items {
            self.add(heading, least, item);
        }
    }
}

pub fn required() -> Vec<Required> {
    let mut list = List::default();
    calls(&mut list);
    runs(&mut list);
    records(&mut list);
    views(&mut list);
    slots(&mut list);
    charges(&mut list);
    isolation(&mut list);
    list.0
}

/// Each call with each refusal that it can give.
fn calls(list: &mut List) {
    let all = [
        ("reset", &[0, 4][..]),
        ("read_record", &[0, 4, 5, 6]),
        ("write_record", &[0, 4, 5, 6]),
        ("run", &[0, 1, 2, 3, 4, 5, 6, 7]),
        ("run_to_exception", &[0, 1, 2, 3, 4, 5, 6, 7]),
        ("run_charged", &[0, 1, 2, 3, 4, 5, 6, 7, 9]),
        ("run_to_exception_charged", &[0, 1, 2, 3, 4, 5, 6, 7, 9]),
        ("page_view", &[0, 1, 4, 5, 6, 8]),
    ];
    for (name, _) in all {
        list.add("call", 1_000, name);
    }
    for (name, refusals) in all {
        for refusal in refusals {
            list.add("refusal (0: none)", 50, format!("{name} {refusal}"));
        }
    }
    // Document 02, job 1: what is only read may have 414 bytes.
    for name in ["read_record", "write_record", "page_view"] {
        list.add("accepted 414 bytes read", 50, name);
    }
    for name in ["reset", "read_record", "write_record"]
        .into_iter()
        .chain(RUNS)
    {
        list.add("refused 414 bytes written", 50, name);
    }
    for n in 0..6 {
        let item = format!("{n} at once");
        list.add("causes of refusals 1 to 7", 10, item);
    }
    for n in 0..7 {
        let item = format!("{n} at once");
        list.add("causes of refusals 1 to 7 and 9", 10, item);
    }
}

fn runs(list: &mut List) {
    for kind in [
        "plain",
        "to exception",
        "charged plain",
        "charged to exception",
    ] {
        for length in [
            "0 steps",
            "1 step",
            "2 to 12 steps",
            "more steps",
            "too many steps",
        ] {
            list.add("run", 100, format!("{kind}, {length}"));
        }
    }
    for name in RUNS {
        for steps in [0, 1, 2, 999_999, 1_000_000] {
            list.add("steps of one run", 1, format!("{name} of {steps} steps"));
        }
    }
    for index in 4..32 {
        list.add("index at the start", 100, index.to_string());
    }
    list.all("largest memory", 1, &["used", "passed by one frame"]);
}

fn records(list: &mut List) {
    let bits = [
        ("register 0", 32),
        ("PSW", 4),
        ("TLB Index", 26),
        ("Entry High", 12),
        ("Entry Low", 10),
        ("TLB high", 32 * 12),
        ("TLB low", 32 * 10),
        ("timer control", 6),
    ];
    for (name, count) in bits {
        list.add("never-kept bits", count, name);
    }
    for kind in ["01", "02", "03", "04", "05", "06"] {
        list.add("kind byte", 256, kind);
    }
}

fn views(list: &mut List) {
    list.all(
        "page view",
        100,
        &[
            "mapped RAM",
            "mapped ROM",
            "mapped belt",
            "mapped timer",
            "mapped nothing",
            "direct RAM",
            "direct ROM",
            "direct belt",
            "direct timer",
            "direct nothing",
            "miss",
            "invalid",
            "above FFFFF",
        ],
    );
}

/// Document 02, job 2: each slot, and 33 where there is none.
fn slots(list: &mut List) {
    for (heading, least) in [
        ("slot of one step", [100, 100, 25, 25]),
        ("slot of the last of several steps", [20, 20, 5, 5]),
    ] {
        for (name, least) in RUNS.into_iter().zip(least) {
            for slot in 0..=33 {
                list.add(heading, least, format!("{name} {slot}"));
            }
        }
    }
    for slot in 0..=32 {
        list.add("slot of a page view", 50, slot.to_string());
    }
    for name in RUNS {
        list.add("slot without an access", 100, format!("{name} 0 steps 33"));
    }
    for name in RUNS.into_iter().chain(["page_view"]) {
        list.add("slot without an access", 100, format!("{name} refused 33"));
    }
    // Direct-mapped addresses are privileged.
    for slot in (0..32).chain([33]) {
        list.add("slot of a pair's last step", 50, slot.to_string());
    }
}

/// Document 02, job 3: each entry that a step can cost, each kind of list, and
/// charges from none to more than 32 bits.
fn charges(list: &mut List) {
    list.all("list of charges", 1_000, &KINDS);
    for entry in (0..65).filter(|entry| !NEVER_COMPLETED.contains(entry)) {
        list.add("charged by entry", 500, entry.to_string());
        list.add("one step by each entry", 1, entry.to_string());
    }
    for name in ["run_charged", "run_to_exception_charged"] {
        for item in ["0, refused", "0, no steps", "0", "16 bits", "32 bits"] {
            list.add("charge", 100, format!("{name} {item}"));
        }
        list.add("charge", 2, format!("{name} more bits"));
    }
}

fn isolation(list: &mut List) {
    let runs = [
        "runs that end in User Mode",
        "runs of the leaving step alone",
        "runs that end with the leaving step",
        "runs of 0 steps",
        "runs refused",
        "runs past the leaving step",
    ];
    list.all("isolation", 100, &runs);
    list.all("isolation, charged", 100, &runs);
    list.add("isolation, charged", 1_000, "equal charges above 0");
    list.all(
        "isolation",
        100,
        &[
            "pairs",
            "timer not reached",
            "timer reached",
            "timer reached writable",
        ],
    );
    for part in PARTS {
        list.add("isolation", 100, format!("differ in {part:?}"));
    }
    for eid in 0..26 {
        list.add("User Mode left by", 4, format!("EID {eid}"));
    }
}
