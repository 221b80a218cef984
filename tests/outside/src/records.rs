//! Records: the readers of rules and of reports.

use crate::cause::{met, refuse_if, Cause, Refusal, Reply};

pub const RULE_BYTES: usize = 512;
pub const RULE_ENTRIES: usize = 64;
pub const REPORT_BYTES: usize = 40_960;
pub const REPORT_ELEMENTS: usize = 4_096;
pub const REPORT_LEVELS: usize = 64;
pub const LABELS: std::ops::RangeInclusive<u16> = 1..=999;

/// An entry of a rule. Kind 2 has its label in `a`; what a kind does not use is 0.
#[derive(Clone, Copy, PartialEq, Eq, Debug)]
pub struct Entry {
    pub kind: u16,
    pub a: u16,
    pub b: u16,
}

/// A record of a report.
#[derive(Clone, Copy, PartialEq, Eq, Debug)]
pub enum Tag {
    Open(u16),
    Close,
}

/// The length that a rule record of this kind must have, if there is such a kind.
pub fn rule_length(kind: u16) -> Option<u16> {
    match kind {
        1 => Some(2),
        2 | 3 | 6 | 7 | 8 | 9 | 14 => Some(4),
        4 | 5 | 10 | 11 | 12 | 13 => Some(6),
        _ => None,
    }
}

/// The same for a report record.
pub fn report_length(kind: u16) -> Option<u16> {
    match kind {
        1 => Some(4),
        2 => Some(2),
        _ => None,
    }
}

/// Whether an entry of this kind looks ahead.
pub fn looks_ahead(kind: u16) -> bool {
    matches!(kind, 6 | 8 | 10 | 12 | 14)
}

/// The bytes of entries: a kind gets its own length, one that there is not has no body.
pub fn rule_bytes(entries: &[Entry]) -> Vec<u8> {
    let mut bytes = Vec::new();
    for entry in entries {
        let length = rule_length(entry.kind).unwrap_or(2);
        let fields = [length, entry.kind, entry.a, entry.b];
        let used = 1 + usize::from(length) / 2;
        bytes.extend(fields[..used].iter().flat_map(|field| field.to_le_bytes()));
    }
    bytes
}

/// The two-byte number at an offset.
fn number_at(bytes: &[u8], at: usize) -> u16 {
    u16::from_le_bytes([bytes[at], bytes[at + 1]])
}

/// What the first record of `left` has wrong in its shape; the causes are named in the order
/// fewer than 4 bytes left, unknown kind, wrong length, past the end.
fn shape_faults(left: &[u8], length_of: fn(u16) -> Option<u16>, names: [Cause; 4]) -> Vec<Cause> {
    let [stray, unknown, wrong, past] = names;
    if left.len() < 4 {
        return vec![stray];
    }
    let length = number_at(left, 0);
    let due = length_of(number_at(left, 2));
    met([
        (due.is_none(), unknown),
        (due.is_some_and(|due| due != length), wrong),
        (2 + usize::from(length) > left.len(), past),
    ])
}

fn label_faults(label: u16, low: Cause, high: Cause) -> Vec<Cause> {
    met([(label < *LABELS.start(), low), (label > *LABELS.end(), high)])
}

/// What is wrong with the arguments of the entry numbered `own`.
fn argument_faults(entry: Entry, own: u16) -> Vec<Cause> {
    use Cause::*;
    match entry.kind {
        1 => vec![],
        2 => label_faults(entry.a, RuleLabelLow, RuleLabelHigh),
        4 | 5 | 10..=13 => met([
            (entry.a == own, FirstIsOwn),
            (entry.a > own, FirstAboveOwn),
            (entry.b == own, SecondIsOwn),
            (entry.b > own, SecondAboveOwn),
        ]),
        _ => met([(entry.a == own, FirstIsOwn), (entry.a > own, FirstAboveOwn)]),
    }
}

/// The entries of a rule, or why and where it is refused.
pub fn read_rule(rule: &[u8]) -> Result<Vec<Entry>, Refusal> {
    use Cause::*;
    refuse_if(met([(rule.is_empty(), RuleEmpty), (rule.len() > RULE_BYTES, RuleLong)]), 0)?;
    let mut entries = Vec::new();
    let mut at = 0;
    while at < rule.len() {
        let left = &rule[at..];
        refuse_if(met([(entries.len() == RULE_ENTRIES, RuleFull)]), at)?;
        refuse_if(shape_faults(left, rule_length, [RuleStray, RuleKind, RuleLength, RulePastEnd]), at)?;
        let length = number_at(left, 0);
        let argument = |k: usize| if usize::from(length) >= 4 + 2 * k { number_at(left, 4 + 2 * k) } else { 0 };
        let entry = Entry { kind: number_at(left, 2), a: argument(0), b: argument(1) };
        refuse_if(argument_faults(entry, entries.len() as u16), at)?;
        entries.push(entry);
        at += 2 + usize::from(length);
    }
    Ok(entries)
}

/// The tags of a report, or why and where it is refused.
pub fn read_report(report: &[u8]) -> Result<Vec<Tag>, Refusal> {
    use Cause::*;
    refuse_if(met([(report.is_empty(), ReportEmpty), (report.len() > REPORT_BYTES, ReportLong)]), 0)?;
    let mut tags = Vec::new();
    let (mut depth, mut elements) = (0, 0);
    let mut at = 0;
    while at < report.len() {
        let left = &report[at..];
        refuse_if(shape_faults(left, report_length, [ReportStray, ReportKind, ReportLength, ReportPastEnd]), at)?;
        let root_closed = elements > 0 && depth == 0;
        if number_at(left, 2) == 1 {
            let label = number_at(left, 4);
            refuse_if(label_faults(label, ReportLabelLow, ReportLabelHigh), at)?;
            refuse_if(met([(root_closed, OpeningAfterRoot)]), at)?;
            refuse_if(met([(depth == REPORT_LEVELS, Level64), (elements == REPORT_ELEMENTS, Element4097)]), at)?;
            tags.push(Tag::Open(label));
            depth += 1;
            elements += 1;
        } else {
            let nothing_open = depth == 0;
            let causes =
                [(nothing_open && !root_closed, ClosingNothing), (nothing_open && root_closed, ClosingAfterRoot)];
            refuse_if(met(causes), at)?;
            tags.push(Tag::Close);
            depth -= 1;
        }
        at += 2 + usize::from(number_at(left, 0));
    }
    refuse_if(met([(depth > 0, EndOpen)]), report.len())?;
    Ok(tags)
}

/// How many elements the tags open.
pub fn elements(tags: &[Tag]) -> usize {
    tags.iter().filter(|tag| **tag != Tag::Close).count()
}

/// What the rule reader answers by itself, and the causes.
pub fn rule_reply(rule: &[u8]) -> (Reply, Vec<Cause>) {
    match read_rule(rule) {
        Ok(entries) => (Reply::accepted(entries.len() as u32), rule_marks(rule, &entries)),
        Err(refusal) => (Reply::refused(&refusal), refusal.causes),
    }
}

/// What the report reader answers by itself, and the causes.
pub fn report_reply(report: &[u8]) -> (Reply, Vec<Cause>) {
    match read_report(report) {
        Ok(tags) => (Reply::accepted(elements(&tags) as u32), report_marks(report, &tags)),
        Err(refusal) => (Reply::refused(&refusal), refusal.causes),
    }
}

/// The marks that an accepted rule reaches.
pub fn rule_marks(rule: &[u8], entries: &[Entry]) -> Vec<Cause> {
    let names = |label| entries.iter().any(|entry| entry.kind == 2 && entry.a == label);
    met([
        (true, Cause::Accepted),
        (entries.len() == 1, Cause::OneEntry),
        (entries.len() == RULE_ENTRIES, Cause::Entries64),
        (rule.len() == 510, Cause::RuleBytes510),
        (names(1), Cause::RuleLabel1),
        (names(999), Cause::RuleLabel999),
    ])
}

/// The marks that an accepted report reaches.
pub fn report_marks(report: &[u8], tags: &[Tag]) -> Vec<Cause> {
    let has = |label| tags.contains(&Tag::Open(label));
    let levels = tags.iter().scan(0, |depth, tag| {
        match tag {
            Tag::Open(_) => *depth += 1,
            Tag::Close => *depth -= 1,
        }
        Some(*depth)
    });
    met([
        (true, Cause::Accepted),
        (elements(tags) == 1, Cause::OneElement),
        (elements(tags) == REPORT_ELEMENTS, Cause::Elements4096),
        (levels.max() == Some(REPORT_LEVELS), Cause::Levels64),
        (report.len() == REPORT_BYTES, Cause::ReportBytes40960),
        (has(1), Cause::ReportLabel1),
        (has(999), Cause::ReportLabel999),
    ])
}
