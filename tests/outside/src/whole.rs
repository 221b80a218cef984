//! The whole report: number, place, elements, selected, and the mark buffer.

use crate::cause::{met, refuse_if, Cause, Refusal};
use crate::meaning;
use crate::records;
use crate::tree::Tree;

/// What the call answers, as the exported function lays it out.
#[derive(Clone, Copy, PartialEq, Eq, Debug)]
#[repr(C)]
pub struct WholeReply {
    pub number: u32,
    pub place: u32,
    pub elements: u32,
    pub selected: u32,
}

/// Evaluates a rule on a report. Refused: the buffer keeps its contents. Accepted: one word for each element, and the
/// words past the last element keep theirs.
pub fn evaluate(rule: &[u8], report: &[u8], buffer: &mut [u64]) -> (WholeReply, Vec<Cause>) {
    match evaluated(rule, report, buffer) {
        Ok((reply, causes)) => (reply, causes),
        Err(refusal) => {
            let reply = WholeReply { number: refusal.number, place: refusal.place, elements: 0, selected: 0 };
            (reply, refusal.causes)
        }
    }
}

fn evaluated(rule: &[u8], report: &[u8], buffer: &mut [u64]) -> Result<(WholeReply, Vec<Cause>), Refusal> {
    let entries = records::read_rule(rule)?;
    let tags = records::read_report(report)?;
    let elements = records::elements(&tags);
    refuse_if(met([(buffer.len() < elements, Cause::RoomShort)]), 0)?;

    let tree = Tree::of(&tags);
    let marks = meaning::marks(&entries, &tree);
    buffer[..elements].copy_from_slice(&meaning::words(&marks, elements));
    let selected = meaning::selected(&marks) as u32;

    let mut causes = records::rule_marks(rule, &entries);
    causes.extend(records::report_marks(report, &tags).into_iter().skip(1));
    causes.extend(met([(buffer.len() == elements, Cause::RoomExact), (buffer.len() > elements, Cause::RoomMore)]));
    causes.extend(meaning::kinds_met(&entries, &marks));
    Ok((WholeReply { number: 0, place: 0, elements: elements as u32, selected }, causes))
}
