//! The running tally.

use crate::cause::{met, Cause};

/// The tally, as the exported function lays it out.
#[derive(Clone, Copy, PartialEq, Eq, Debug)]
#[repr(C)]
pub struct Tally {
    pub seen: u32,
    pub selected: u32,
    pub passed_over: u32,
}

/// Counts one verdict, or refuses (12) and leaves the tally.
pub fn count(tally: &mut Tally, verdict: bool) -> (u32, Vec<Cause>) {
    let seen = u64::from(tally.seen);
    let sum = u64::from(tally.selected) + u64::from(tally.passed_over);
    let causes = met([
        (tally.seen == u32::MAX, Cause::TallyFull),
        (sum < seen, Cause::SumBelowSeen),
        (sum > seen && sum as u32 != tally.seen, Cause::SumAboveSeen),
        (sum > seen && sum as u32 == tally.seen, Cause::SumWraps),
    ]);
    if !causes.is_empty() {
        return (12, causes);
    }
    tally.seen += 1;
    if verdict {
        tally.selected += 1;
    } else {
        tally.passed_over += 1;
    }
    let top = tally.seen == u32::MAX;
    let causes = [
        (true, Cause::Accepted),
        (verdict, Cause::VerdictTrue),
        (!verdict, Cause::VerdictFalse),
        (top, Cause::TallyToTheTop),
    ];
    (0, met(causes))
}
