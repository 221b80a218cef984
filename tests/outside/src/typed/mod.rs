//! Request #101: a rule typed as a path. A text is read, and the bytes of its rule are written.

mod automaton;
pub mod grammar;
pub mod pairs;
pub mod syntax;
pub mod translation;

use crate::cause::{met, refuse_if, Cause, Refusal, Reply};
use crate::records::{rule_bytes, Entry, RULE_ENTRIES};
use syntax::Test;

pub const TEXT_BYTES: usize = 1_024;

/// Reads a text and writes its rule to the front of a lent buffer. Refused: the buffer keeps its contents. Accepted:
/// the bytes past the rule keep theirs.
pub fn read_path(text: &[u8], rule: &mut [u8]) -> (Reply, Vec<Cause>) {
    match written(text, rule) {
        Ok((bytes, causes)) => (Reply::accepted(bytes as u32), causes),
        Err(refusal) => (Reply::refused(&refusal), refusal.causes),
    }
}

fn written(text: &[u8], rule: &mut [u8]) -> Result<(usize, Vec<Cause>), Refusal> {
    use Cause::*;
    refuse_if(met([(text.is_empty(), TextEmpty), (text.len() > TEXT_BYTES, TextLong)]), 0)?;
    let test = tree(text)?;
    let entries = translation::entries(&test);
    let over = entries.len().saturating_sub(RULE_ENTRIES);
    refuse_if(met([(over == 1, OneEntryOver), (over > 1, EntriesOver)]), 0)?;
    let bytes = rule_bytes(&entries);
    refuse_if(met([(rule.len() < bytes.len(), RuleRoomShort)]), 0)?;
    rule[..bytes.len()].copy_from_slice(&bytes);

    let mut causes = text_marks(text, &test, &entries);
    causes.extend(met([
        (bytes.len() == 456, RuleBytes456),
        (rule.len() == bytes.len(), RuleRoomExact),
        (rule.len() > bytes.len(), RuleRoomMore),
    ]));
    Ok((bytes.len(), causes))
}

/// The tree of a text, or why and where there is none.
fn tree(text: &[u8]) -> Result<Test, Refusal> {
    grammar::read(text).map_err(|place| {
        let cause = if place == text.len() { Cause::TextEndsEarly } else { Cause::TextStray };
        Refusal { number: cause.number(), place: place as u32, causes: vec![cause] }
    })
}

/// The marks that an accepted text reaches.
fn text_marks(text: &[u8], test: &Test, entries: &[Entry]) -> Vec<Cause> {
    let ahead = test.looks_ahead();
    let mut causes = met([
        (true, Cause::Accepted),
        (entries.len() == 1, Cause::OneEntry),
        (entries.len() == RULE_ENTRIES, Cause::Entries64),
        (text.len() == 448, Cause::TextBytes448),
        (ahead, Cause::TextLooksAhead),
        (!ahead, Cause::TextLooksBack),
    ]);
    causes.extend(test.forms().into_iter().map(Cause::Has));
    causes
}
