//! One run: what was compared, what differed, and how often each cause was met.

use crate::calls::Call;
use crate::kept::{Keeper, Kept};
use outside::cause::Cause;
use std::collections::BTreeMap;
use std::fmt::Debug;

/// So many differences are shown in full; the rest are counted.
const SHOWN: u64 = 5;

#[derive(Default)]
struct Count {
    met: u64,
    alone: u64,
}

pub struct Run {
    pub seed: u64,
    /// The number of the input in hand; none while the fixed inputs are run.
    pub input: Option<u64>,
    keeper: Option<Keeper>,
    counts: BTreeMap<(Call, Cause), Count>,
    passed: u64,
    failed: u64,
}

impl Run {
    pub fn new(seed: u64, keeper: Option<Keeper>) -> Run {
        Run { seed, input: None, keeper, counts: BTreeMap::new(), passed: 0, failed: 0 }
    }

    /// Holds what a call did to what the document says. `input` spells what the call was given.
    pub fn same<T: PartialEq + Debug>(&mut self, call: Call, document: T, exported: T, input: impl Fn() -> String) {
        if document == exported {
            self.passed += 1;
            return;
        }
        self.failed += 1;
        if self.failed <= SHOWN {
            let number = self.input.map_or("one of the fixed inputs".to_string(), |input| format!("input {input}"));
            println!("DIFFERENCE in {}: seed {}, {number}", call.name(), self.seed);
            println!("{}", input());
            println!("  document says {document:?}");
            println!("  the call did  {exported:?}");
        }
    }

    /// Keeps a call of an exported function, where that was asked for.
    pub fn keep(&mut self, kept: &Kept) {
        if let Some(keeper) = &mut self.keeper {
            keeper.keep(kept).unwrap_or_else(|error| panic!("a call cannot be kept: {error}"));
        }
    }

    /// Counts the causes of a call's number; a cause is alone if no other would have given the number there.
    pub fn met(&mut self, call: Call, causes: &[Cause]) {
        for cause in causes {
            let count = self.counts.entry((call, *cause)).or_default();
            count.met += 1;
            count.alone += u64::from(cause.number() == 0 || causes.len() == 1);
        }
    }

    /// Ends the kept file and prints the table of counts; a cause that never occurred by itself is a failure. Gives
    /// whether all is well.
    pub fn end(mut self, calls: &[Call]) -> bool {
        if let Some(keeper) = self.keeper.take() {
            keeper.end().unwrap_or_else(|error| panic!("the calls cannot be kept: {error}"));
        }
        println!("{:<15} {:>3}  {:<45} {:>9} {:>9}", "call", "no.", "cause", "met", "alone");
        for call in calls {
            let mut due = call.due();
            due.sort_by_key(|cause| (cause.number(), *cause));
            for cause in due {
                let Count { met, alone } = self.counts.remove(&(*call, cause)).unwrap_or_default();
                let (number, words) = (cause.number(), cause.words());
                let note = if alone > 0 { "" } else { "  NEVER ALONE" };
                println!("{:<15} {number:>3}  {words:<45} {met:>9} {alone:>9}{note}", call.name());
                if alone > 0 {
                    self.passed += 1;
                } else {
                    self.failed += 1;
                }
            }
        }
        for (call, cause) in self.counts.keys() {
            println!("{} met a cause that its table lacks: {}", call.name(), cause.words());
            self.failed += 1;
        }
        println!("{} passed, {} failed", self.passed, self.failed);
        self.failed == 0
    }
}

/// Bytes in hexadecimal, as one line of an input.
pub fn hex(name: &str, bytes: &[u8]) -> String {
    let digits: String = bytes.iter().map(|byte| format!("{byte:02x}")).collect();
    format!("  {name} ({} bytes) {digits}", bytes.len())
}
