//! What a text means by itself, from section 4.2 of source document 000: a test is a set of elements, a path a set of
//! pairs of elements. No entry and no kind plays a part in it.

use super::syntax::{Axis, Step, Test};
use crate::tree::Tree;
use std::collections::BTreeSet;

pub type Elements = BTreeSet<usize>;
type Pairs = BTreeSet<(usize, usize)>;

/// The elements of a tree at which a test holds.
pub fn elements(test: &Test, tree: &Tree) -> Elements {
    let all: Elements = (0..tree.size()).collect();
    match test {
        Test::True => all,
        Test::Label(label) => all.into_iter().filter(|s| tree.label(*s) == *label).collect(),
        Test::Not(test) => &all - &elements(test, tree),
        Test::Or(left, right) => &elements(left, tree) | &elements(right, tree),
        Test::Path(steps) => path_pairs(steps, tree).into_iter().map(|(s, _)| s).collect(),
    }
}

/// The composition of the steps.
fn path_pairs(steps: &[Step], tree: &Tree) -> Pairs {
    steps
        .iter()
        .map(|step| step_pairs(step, tree))
        .reduce(|before, step| composed(&before, &step))
        .expect("a path has a step")
}

fn step_pairs(step: &Step, tree: &Tree) -> Pairs {
    match step {
        Step::Axis(axis) => axis_pairs(*axis, tree),
        Step::Star(axis) => closure(&axis_pairs(*axis, tree), tree),
        Step::Test(test) => same(elements(test, tree)),
        Step::Conditional(axis, test) => {
            let passing = same(elements(test, tree));
            closure(&composed(&axis_pairs(*axis, tree), &passing), tree)
        }
    }
}

fn axis_pairs(axis: Axis, tree: &Tree) -> Pairs {
    let turned = |pairs: Pairs| pairs.into_iter().map(|(s, t)| (t, s)).collect();
    match axis {
        Axis::Child => (0..tree.size()).flat_map(|s| tree.children(s).iter().map(move |t| (s, *t))).collect(),
        Axis::Parent => turned(axis_pairs(Axis::Child, tree)),
        Axis::Right => (0..tree.size()).filter_map(|s| tree.next(s).map(|t| (s, t))).collect(),
        Axis::Left => turned(axis_pairs(Axis::Right, tree)),
    }
}

/// Each of the elements with itself.
fn same(elements: Elements) -> Pairs {
    elements.into_iter().map(|s| (s, s)).collect()
}

/// The pairs (s, u) for which there is a t with (s, t) in the first set and (t, u) in the second.
fn composed(first: &Pairs, second: &Pairs) -> Pairs {
    first.iter().flat_map(|(s, t)| second.range((*t, 0)..(t + 1, 0)).map(move |(_, u)| (*s, *u))).collect()
}

/// The reflexive and transitive closure.
fn closure(pairs: &Pairs, tree: &Tree) -> Pairs {
    let mut reached = same((0..tree.size()).collect());
    loop {
        let further = &reached | &composed(&reached, pairs);
        if further == reached {
            return reached;
        }
        reached = further;
    }
}
