//! The table of kinds, each row by its quantifiers over the whole tree.

use crate::cause::Cause;
use crate::records::Entry;
use crate::tree::Tree;

/// `marks(..)[i][s]`: whether entry i holds at element s. Entry by entry, since each names earlier ones only.
pub fn marks(entries: &[Entry], tree: &Tree) -> Vec<Vec<bool>> {
    let mut marks: Vec<Vec<bool>> = Vec::new();
    for entry in entries {
        let column = (0..tree.size()).map(|s| holds(*entry, tree, &marks, s)).collect();
        marks.push(column);
    }
    marks
}

/// Whether an entry holds at an element, given where the earlier entries hold.
fn holds(entry: Entry, tree: &Tree, earlier: &[Vec<bool>], s: usize) -> bool {
    let a = |t: usize| earlier[usize::from(entry.a)][t];
    let b = |t: usize| earlier[usize::from(entry.b)][t];
    let rank = tree.rank(s);
    let siblings = tree.siblings(s);
    match entry.kind {
        1 => true,
        2 => tree.label(s) == entry.a,
        3 => !a(s),
        4 => a(s) || b(s),
        5 => a(s) && b(s),
        6 => tree.children(s).iter().any(|t| a(*t)),
        7 => tree.parent(s).is_some_and(a),
        8 => tree.next(s).is_some_and(a),
        9 => tree.previous(s).is_some_and(a),
        10 => b(s) || tree.descendants(s).iter().any(|t| b(*t) && tree.way(*t, s).all(|u| u == *t || a(u))),
        11 => b(s) || tree.ancestors(s).any(|t| b(t) && tree.way(s, t).all(|u| u == t || a(u))),
        12 => (rank..siblings.len()).any(|r| b(siblings[r]) && siblings[rank..r].iter().all(|u| a(*u))),
        13 => (0..=rank).any(|r| b(siblings[r]) && siblings[r + 1..=rank].iter().all(|u| a(*u))),
        14 => !tree.children(s).is_empty() && tree.children(s).iter().all(|t| a(*t)),
        kind => unreachable!("an accepted rule has no kind {kind}"),
    }
}

/// The word of each element: bit i is entry i's mark.
pub fn words(marks: &[Vec<bool>], elements: usize) -> Vec<u64> {
    let word = |s: usize| marks.iter().enumerate().map(|(i, column)| u64::from(column[s]) << i).sum();
    (0..elements).map(word).collect()
}

/// The verdict of each element: the last entry is the rule.
pub fn verdicts(marks: &[Vec<bool>]) -> &[bool] {
    marks.last().expect("an accepted rule has an entry")
}

/// How many elements are selected.
pub fn selected(marks: &[Vec<bool>]) -> usize {
    verdicts(marks).iter().filter(|verdict| **verdict).count()
}

/// Which kinds hold somewhere and which fail somewhere, for the table of counts.
pub fn kinds_met(entries: &[Entry], marks: &[Vec<bool>]) -> Vec<Cause> {
    let mut met = Vec::new();
    for (entry, column) in entries.iter().zip(marks) {
        if column.contains(&true) {
            met.push(Cause::Holds(entry.kind));
        }
        if column.contains(&false) {
            met.push(Cause::Fails(entry.kind));
        }
    }
    met.sort();
    met.dedup();
    met
}
