//! The counts, one line a kind, and the differences that nothing explains.

use std::collections::{BTreeMap, BTreeSet};

#[derive(Default)]
pub struct Report {
    kinds: BTreeMap<&'static str, u64>,
    notes: BTreeMap<&'static str, u64>,
    firsts: BTreeMap<&'static str, String>,
    pub cases: u64,
    /// The kinds that differ.
    pub differing: BTreeSet<String>,
    pub unexplained: u64,
    silent: bool,
}

const SHOWN: u64 = 20;

impl Report {
    /// One that shows no difference.
    pub fn silent() -> Report {
        Report { silent: true, ..Report::default() }
    }

    /// One case: one call of the library, everything it answered compared.
    pub fn case(&mut self, kind: &'static str, difference: Option<String>) {
        self.cases += 1;
        *self.kinds.entry(kind).or_default() += 1;
        if let Some(text) = difference {
            self.differs(kind, text);
        }
    }

    pub fn differs(&mut self, kind: &str, text: String) {
        self.unexplained += 1;
        self.differing.insert(kind.into());
        if !self.silent && self.unexplained <= SHOWN {
            println!("UNEXPLAINED, {kind}: {text}");
        }
    }

    /// The first input of a kind, to be printed with its count.
    pub fn first(&mut self, kind: &'static str, input: impl FnOnce() -> String) {
        self.firsts.entry(kind).or_insert_with(input);
    }

    /// What answers are held to besides the cases, and how often; text says what does not.
    pub fn holds(&mut self, check: &'static str, holds: bool, text: impl FnOnce() -> String) {
        self.note(check, 1);
        if !holds {
            self.differs(check, text());
        }
    }

    /// What is counted besides the cases.
    pub fn note(&mut self, what: &'static str, n: u64) {
        *self.notes.entry(what).or_default() += n;
    }

    pub fn most(&mut self, what: &'static str, n: u64) {
        let held = self.notes.entry(what).or_default();
        *held = n.max(*held);
    }

    pub fn print(&self) {
        let line = |(kind, n): (&&str, &u64)| match self.firsts.get(kind) {
            Some(input) => println!("{n:>9}  {kind}; first: {input}"),
            None => println!("{n:>9}  {kind}"),
        };
        self.kinds.iter().for_each(line);
        println!("besides:");
        self.notes.iter().for_each(line);
    }
}
