//! Counts of what a set of cases has covered, by heading and item.

use std::collections::BTreeMap;
use std::fmt::Write;

/// An item that a set must hold at least so many times.
pub struct Required {
    pub heading: &'static str,
    pub item: String,
    pub least: u64,
}

#[derive(Default)]
pub struct Tally {
    counts: BTreeMap<&'static str, BTreeMap<String, u64>>,
}

/// Headings with more items than this are reported by their least count.
const LISTED: usize = 64;
const LINE: usize = 78;

impl Tally {
    pub fn add(&mut self, heading: &'static str, item: impl Into<String>) {
        let items = self.counts.entry(heading).or_default();
        *items.entry(item.into()).or_default() += 1;
    }

    pub fn count(&self, heading: &str, item: &str) -> u64 {
        let items = self.counts.get(heading);
        items
            .and_then(|items| items.get(item))
            .copied()
            .unwrap_or(0)
    }

    /// One line for each required item that the set holds too seldom.
    pub fn holes(&self, required: &[Required]) -> Vec<String> {
        let mut holes = Vec::new();
        for Required {
            heading,
            item,
            least,
        } in required
        {
            let count = self.count(heading, item);
            if count < *least {
                holes.push(format!("{heading}: {item} {count} of {least}"));
            }
        }
        holes
    }

    /// The counts of the required items under their headings, in their order.
    pub fn report(&self, required: &[Required]) -> String {
        let mut text = String::new();
        let mut rest = required;
        while let Some(first) = rest.first() {
            let length = rest
                .iter()
                .take_while(|item| item.heading == first.heading)
                .count();
            self.report_heading(&mut text, &rest[..length]);
            rest = &rest[length..];
        }
        text
    }

    fn report_heading(&self, text: &mut String, required: &[Required]) {
        let heading = required[0].heading;
        let counts: Vec<u64> = required
            .iter()
            .map(|wanted| self.count(heading, &wanted.item))
            .collect();
        if required.len() > LISTED {
            let least = counts.iter().min().copied().unwrap_or(0);
            let sum: u64 = counts.iter().sum();
            let n = required.len();
            let _ = writeln!(
                text,
                "{heading}\n  {n} items, {sum} in all, each {least} or more"
            );
            return;
        }
        let _ = writeln!(text, "{heading}");
        let items = required.iter().zip(&counts);
        wrap(
            text,
            items.map(|(wanted, n)| format!("{} {n}", wanted.item)),
        );
    }
}

/// Writes items in lines, indented by two.
fn wrap(text: &mut String, items: impl Iterator<Item = String>) {
    let mut line = String::new();
    for item in items {
        if !line.is_empty() && line.len() + item.len() + 4 > LINE {
            let _ = writeln!(text, "  {line}");
            line.clear();
        }
        if !line.is_empty() {
            line.push_str(", ");
        }
        line.push_str(&item);
    }
    let _ = writeln!(text, "  {line}");
}
