//! The program: what it writes for what it reads; and the call that gives C the text of a rule and a report.

use crate::cause::{met, refuse_if, Cause, Refusal, Reply};
use crate::meaning;
use crate::records::{self, read_report, read_rule};
use crate::tree::Tree;

/// How much of standard input is read.
pub const INPUT_BYTES: usize = 65_536;
/// The longest text that a report can have.
const TEXT_MOST: usize = 56_275;

/// The text for an input, and the causes of its number.
pub fn text(input: &[u8]) -> (String, Vec<Cause>) {
    match accepted_text(&input[..input.len().min(INPUT_BYTES)]) {
        Ok(accepted) => accepted,
        Err(refusal) => (format!("refused {} at {}\n", refusal.number, refusal.place), refusal.causes),
    }
}

fn accepted_text(input: &[u8]) -> Result<(String, Vec<Cause>), Refusal> {
    refuse_if(met([(input.len() < 2, Cause::InputEndsBeforeRule)]), 0)?;
    let rule_len = usize::from(u16::from_le_bytes([input[0], input[1]]));
    let rest = &input[2..];
    refuse_if(met([(rule_len > rest.len(), Cause::InputEndsInsideRule)]), 0)?;
    let (rule, report) = rest.split_at(rule_len);
    text_of_both(rule, report)
}

/// The text of a rule and a report.
fn text_of_both(rule: &[u8], report: &[u8]) -> Result<(String, Vec<Cause>), Refusal> {
    let entries = read_rule(rule)?;
    let tags = read_report(report)?;

    let tree = Tree::of(&tags);
    let marks = meaning::marks(&entries, &tree);
    let mut text = String::from("element label level selected\n");
    for (s, verdict) in meaning::verdicts(&marks).iter().enumerate() {
        text += &format!("{s} {} {} {}\n", tree.label(s), tree.level(s), u32::from(*verdict));
    }
    text += &format!("selected {} of {}\n", meaning::selected(&marks), tree.size());
    Ok((text, records::report_marks(report, &tags)))
}

/// Puts the text of a rule and a report into a buffer. Refused: the buffer keeps its contents. Accepted: the text stands
/// at its front, and the bytes past the text keep theirs.
pub fn print(rule: &[u8], report: &[u8], buffer: &mut [u8]) -> (Reply, Vec<Cause>) {
    match printed(rule, report, buffer) {
        Ok((written, causes)) => (Reply::accepted(written as u32), causes),
        Err(refusal) => (Reply::refused(&refusal), refusal.causes),
    }
}

fn printed(rule: &[u8], report: &[u8], buffer: &mut [u8]) -> Result<(usize, Vec<Cause>), Refusal> {
    let (text, mut causes) = text_of_both(rule, report)?;
    let size = text.len();
    refuse_if(met([(buffer.len() < size, Cause::PrintoutRoomShort)]), 0)?;
    buffer[..size].copy_from_slice(text.as_bytes());
    causes.extend(met([
        (size == TEXT_MOST, Cause::PrintoutLongest),
        (buffer.len() == size, Cause::PrintoutRoomExact),
        (buffer.len() > size, Cause::PrintoutRoomMore),
    ]));
    Ok((size, causes))
}
