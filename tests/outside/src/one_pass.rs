//! One pass: start, open and close over the lent state of 1,040 bytes, by the document's table.

use crate::cause::{met, refuse_if, Cause, Refusal, Reply};
use crate::records::{looks_ahead, read_rule, Entry, LABELS, REPORT_ELEMENTS, REPORT_LEVELS};

pub const STATE_BYTES: usize = 1_040;

// Where things are in the state.
pub const DEPTH: usize = 0;
pub const ELEMENTS: usize = 2;
pub const ROOT_CLOSED: usize = 4;
pub const ZEROS: usize = 6;
pub const PRESENCE: usize = 8;
const OPEN_WORDS: usize = 16;
const LAST_WORDS: usize = 528;

/// Where the open word of a depth is.
pub fn open_word(depth: usize) -> usize {
    OPEN_WORDS + 8 * depth
}

/// Where the last word of a depth is.
pub fn last_word(depth: usize) -> usize {
    LAST_WORDS + 8 * depth
}

pub fn half(state: &[u8], at: usize) -> usize {
    usize::from(u16::from_le_bytes([state[at], state[at + 1]]))
}

pub fn set_half(state: &mut [u8], at: usize, value: usize) {
    let value = u16::try_from(value).expect("a two-byte number");
    state[at..at + 2].copy_from_slice(&value.to_le_bytes());
}

pub fn word(state: &[u8], at: usize) -> u64 {
    let mut bytes = [0; 8];
    bytes.copy_from_slice(&state[at..at + 8]);
    u64::from_le_bytes(bytes)
}

pub fn set_word(state: &mut [u8], at: usize, value: u64) {
    state[at..at + 8].copy_from_slice(&value.to_le_bytes());
}

fn bit(word: u64, i: usize) -> bool {
    word >> i & 1 == 1
}

/// What makes a state bad.
fn state_faults(state: &[u8]) -> Vec<Cause> {
    use Cause::*;
    if state.len() != STATE_BYTES {
        return vec![StateLength];
    }
    let [depth, elements, root_closed] = [DEPTH, ELEMENTS, ROOT_CLOSED].map(|at| half(state, at));
    met([
        (depth > REPORT_LEVELS, DepthOver64),
        (depth > elements, DepthOverElements),
        (elements > REPORT_ELEMENTS, ElementsOver4096),
        (root_closed > 1, RootClosedOver1),
        (root_closed != 0 && depth != 0, RootClosedWhileOpen),
        (state[ZEROS] != 0, Byte6NotZero),
        (state[ZEROS + 1] != 0, Byte7NotZero),
    ])
}

/// The kinds in a rule that look ahead, used by the last entry or not.
fn ahead_faults(entries: &[Entry]) -> Vec<Cause> {
    let named = |kind: &u16| entries.iter().any(|entry| entry.kind == *kind);
    (1..=14).filter(|kind| looks_ahead(*kind)).filter(named).map(Cause::LooksAhead).collect()
}

/// Starts a pass.
pub fn start(state: &mut [u8]) -> (Reply, Vec<Cause>) {
    if state.len() != STATE_BYTES {
        return (Reply { number: 11, place: 0, found: 0 }, vec![Cause::StateLength]);
    }
    state.fill(0);
    (Reply::accepted(0), vec![Cause::Accepted])
}

/// Opens an element.
pub fn open(rule: &[u8], state: &mut [u8], label: u32) -> (Reply, Vec<Cause>) {
    answered(opened(rule, state, label))
}

/// Closes the innermost open element.
pub fn close(rule: &[u8], state: &mut [u8]) -> (Reply, Vec<Cause>) {
    answered(closed(rule, state))
}

fn answered(result: Result<(bool, Vec<Cause>), Refusal>) -> (Reply, Vec<Cause>) {
    match result {
        Ok((verdict, causes)) => (Reply::accepted(u32::from(verdict)), causes),
        Err(refusal) => (Reply::refused(&refusal), refusal.causes),
    }
}

fn opened(rule: &[u8], state: &mut [u8], label: u32) -> Result<(bool, Vec<Cause>), Refusal> {
    use Cause::*;
    let entries = read_rule(rule)?;
    refuse_if(ahead_faults(&entries), 0)?;
    refuse_if(state_faults(state), 0)?;
    let two_bytes = label <= u32::from(u16::MAX);
    let [least, most] = [*LABELS.start(), *LABELS.end()].map(u32::from);
    let label_faults =
        [(label < least, ReportLabelLow), (two_bytes && label > most, ReportLabelHigh), (!two_bytes, LabelOver16Bits)];
    refuse_if(met(label_faults), 0)?;
    refuse_if(met([(half(state, ROOT_CLOSED) == 1, OpeningAfterRoot)]), 0)?;
    let depth = half(state, DEPTH);
    let elements = half(state, ELEMENTS);
    refuse_if(met([(depth == REPORT_LEVELS, Level64), (elements == REPORT_ELEMENTS, Element4097)]), 0)?;

    let presence = word(state, PRESENCE);
    let parent = (depth > 0).then(|| word(state, open_word(depth - 1)));
    let previous = bit(presence, depth).then(|| word(state, last_word(depth)));
    let marks = opening_word(&entries, label, parent, previous);
    set_word(state, open_word(depth), marks);
    if depth < 63 {
        set_word(state, PRESENCE, presence & !(1 << (depth + 1)));
    }
    set_half(state, DEPTH, depth + 1);
    set_half(state, ELEMENTS, elements + 1);

    let verdict = bit(marks, entries.len() - 1);
    let mut causes = met([
        (true, Accepted),
        (parent.is_none() && previous.is_none(), NoParentNoPrevious),
        (parent.is_some() && previous.is_none(), ParentAlone),
        (parent.is_none() && previous.is_some(), PreviousAlone),
        (parent.is_some() && previous.is_some(), ParentAndPrevious),
        (depth + 1 == REPORT_LEVELS, DepthNow64),
        (elements + 1 == REPORT_ELEMENTS, ElementsNow4096),
        (verdict, VerdictTrue),
        (!verdict, VerdictFalse),
    ]);
    let marked = |(i, entry): (usize, &Entry)| if bit(marks, i) { Holds(entry.kind) } else { Fails(entry.kind) };
    causes.extend(entries.iter().enumerate().map(marked));
    causes.sort();
    causes.dedup();
    Ok((verdict, causes))
}

/// The word of an element that opens, from its label and the words of its parent and previous sibling.
/// With no such word its bits count as 0.
fn opening_word(entries: &[Entry], label: u32, parent: Option<u64>, previous: Option<u64>) -> u64 {
    let parent_bit = |i: usize| parent.is_some_and(|word| bit(word, i));
    let previous_bit = |i: usize| previous.is_some_and(|word| bit(word, i));
    let mut word = 0;
    for (i, entry) in entries.iter().enumerate() {
        let (a, b) = (usize::from(entry.a), usize::from(entry.b));
        let mark = match entry.kind {
            1 => true,
            2 => label == u32::from(entry.a),
            3 => !bit(word, a),
            4 => bit(word, a) || bit(word, b),
            5 => bit(word, a) && bit(word, b),
            7 => parent_bit(a),
            9 => previous_bit(a),
            11 => bit(word, b) || bit(word, a) && parent_bit(i),
            13 => bit(word, b) || bit(word, a) && previous_bit(i),
            kind => unreachable!("kind {kind} does not look back"),
        };
        word |= u64::from(mark) << i;
    }
    word
}

fn closed(rule: &[u8], state: &mut [u8]) -> Result<(bool, Vec<Cause>), Refusal> {
    use Cause::*;
    let entries = read_rule(rule)?;
    refuse_if(ahead_faults(&entries), 0)?;
    refuse_if(state_faults(state), 0)?;
    let depth = half(state, DEPTH);
    let root_closed = half(state, ROOT_CLOSED) == 1;
    let nothing_open = depth == 0;
    refuse_if(
        met([(nothing_open && !root_closed, ClosingNothing), (nothing_open && root_closed, ClosingAfterRoot)]),
        0,
    )?;

    let last = depth - 1;
    let marks = word(state, open_word(last));
    set_word(state, last_word(last), marks);
    let presence = word(state, PRESENCE);
    set_word(state, PRESENCE, presence | 1 << last);
    set_half(state, DEPTH, last);
    if last == 0 {
        set_half(state, ROOT_CLOSED, 1);
    }
    Ok((false, met([(true, Accepted), (last > 0, ClosedInner), (last == 0, ClosedRoot)])))
}
