//! The translation of a tree to entries, in the order of request #101.

use super::syntax::{Axis, Step, Test};
use crate::records::Entry;

/// The entries of a test: left argument first, then right, then the whole.
pub fn entries(test: &Test) -> Vec<Entry> {
    let mut entries = Entries(vec![]);
    entries.put_test(test);
    entries.0
}

struct Entries(Vec<Entry>);

impl Entries {
    /// Puts an entry behind the others; gives its number.
    fn put(&mut self, kind: u16, a: u16, b: u16) -> u16 {
        self.0.push(Entry { kind, a, b });
        self.0.len() as u16 - 1
    }

    fn put_true(&mut self) -> u16 {
        self.put(1, 0, 0)
    }

    fn put_test(&mut self, test: &Test) -> u16 {
        match test {
            Test::True => self.put_true(),
            Test::Label(label) => self.put(2, *label, 0),
            Test::Not(test) => {
                let a = self.put_test(test);
                self.put(3, a, 0)
            }
            Test::Or(left, right) => {
                let a = self.put_test(left);
                let b = self.put_test(right);
                self.put(4, a, b)
            }
            Test::Path(steps) => {
                let closing = self.put_true();
                steps.iter().rev().fold(closing, |argument, step| self.put_step(step, argument))
            }
        }
    }

    /// A step, with its test before it. The argument is the entry of what follows the step.
    fn put_step(&mut self, step: &Step, argument: u16) -> u16 {
        match step {
            Step::Axis(axis) => self.put(neighbour(*axis), argument, 0),
            Step::Star(axis) => {
                let anything = self.put_true();
                self.put(until(*axis), anything, argument)
            }
            Step::Test(test) => {
                let test = self.put_test(test);
                self.put(5, argument, test)
            }
            Step::Conditional(Axis::Child, test) => {
                let test = self.put_test(test);
                let last = self.put(5, argument, test);
                let way = self.put(until(Axis::Child), test, last);
                let below = self.put(neighbour(Axis::Child), way, 0);
                self.put(4, argument, below)
            }
            Step::Conditional(axis, test) => {
                let test = self.put_test(test);
                let passes = self.put(neighbour(*axis), test, 0);
                self.put(until(*axis), passes, argument)
            }
        }
    }
}

/// The kind that looks one step along an axis.
fn neighbour(axis: Axis) -> u16 {
    match axis {
        Axis::Child => 6,
        Axis::Parent => 7,
        Axis::Right => 8,
        Axis::Left => 9,
    }
}

/// The kind that looks any number of steps along an axis.
fn until(axis: Axis) -> u16 {
    match axis {
        Axis::Child => 10,
        Axis::Parent => 11,
        Axis::Right => 12,
        Axis::Left => 13,
    }
}
