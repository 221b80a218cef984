//! The document's samples and edges: every run begins with these.

use crate::inputs::report_bytes;
use outside::records::{rule_bytes, Entry, Tag};

pub fn entry(kind: u16, a: u16, b: u16) -> Entry {
    Entry { kind, a, b }
}

pub const TRUE: Entry = Entry { kind: 1, a: 0, b: 0 };

pub fn label(label: u16) -> Entry {
    entry(2, label, 0)
}

/// The rules of the cases A to K.
pub fn sample_rules() -> Vec<Vec<u8>> {
    let rules: [&[Entry]; 11] = [
        &[TRUE, label(20), label(30), entry(12, 0, 2), entry(5, 1, 3)],
        &[label(10), entry(9, 0, 0), entry(7, 1, 0), label(20), entry(5, 3, 2)],
        &[TRUE],
        &[TRUE, entry(7, 0, 0)],
        &[TRUE, label(10), entry(11, 0, 1)],
        &[label(1), label(10), entry(10, 0, 1)],
        &[label(30), label(20), entry(13, 0, 1)],
        &[label(20), entry(14, 0, 0)],
        &[label(20), entry(3, 0, 0)],
        &[label(30), entry(6, 0, 0)],
        &[label(10), entry(8, 0, 0)],
    ];
    rules.map(rule_bytes).to_vec()
}

/// The document's report R.
pub fn sample_report() -> Vec<u8> {
    use Tag::{Close, Open};
    let first = [Open(10), Open(20), Close, Open(30), Close, Close];
    let second = [Open(10), Open(20), Close, Close];
    report_bytes(&[&[Open(1)], &first[..], &second[..], &[Close]].concat())
}

/// The samples, and rules at each edge.
pub fn rules() -> Vec<Vec<u8>> {
    let mut rules = sample_rules();
    rules.extend([63, 64, 65, 66, 128, 129].map(|count| rule_bytes(&vec![TRUE; count])));
    rules.extend([0, 1, 999, 1_000, 65_535].map(|edge| rule_bytes(&[label(edge)])));
    rules.push(rule_bytes(&[entry(3, 0, 0)]));
    let named = [entry(3, 1, 0), entry(3, 2, 0), entry(5, 1, 0), entry(5, 2, 0), entry(5, 0, 1), entry(5, 0, 2)];
    rules.extend(named.map(|last| rule_bytes(&[TRUE, last])));
    let named = [entry(5, 62, 62), entry(5, 62, 63), entry(5, 63, 62), entry(15, 0, 0)];
    rules.extend(named.map(|last| rule_bytes(&[&[TRUE; 63][..], &[last]].concat())));
    rules.push(rule_bytes(&[&[TRUE; 63][..], &[entry(15, 0, 0), TRUE]].concat()));
    let faults = [label(0), entry(15, 0, 0)];
    rules.extend([[0, 1], [1, 0]].map(|[i, j]| rule_bytes(&[TRUE, faults[i], faults[j]])));
    rules.push([rule_bytes(&[label(0)]), vec![0; 505]].concat());
    let longest = rule_bytes(&[&[label(5)], &[entry(4, 0, 0); 63][..]].concat());
    for full in [&longest, &rule_bytes(&[TRUE; 64])] {
        rules.extend([0, 1, 2, 3].map(|more| [&full[..], &[1; 3][..more]].concat()));
    }
    rules.extend((0..6).map(|less| longest[..longest.len() - less].to_vec()));
    rules.extend([0, 1, 3, 511, 512, 513, 65_536].map(|len| vec![0; len]));
    rules
}

/// Every kind with every length, every kind with every entry number, every label near the limits: each as the last
/// record of a rule, behind two entries and behind one, as the 65th, and cut short. Then a rule cut at every byte.
pub fn swept_rules() -> Vec<Vec<u8>> {
    let body = [0; 10];
    let mut records: Vec<Vec<u8>> = Vec::new();
    for kind in KINDS {
        records.extend((0..12).map(|length| [&field(length)[..], &field(kind), &body].concat()));
        records.extend((0..12).map(|length| [&field(length)[..], &field(kind), &body[..2]].concat()));
        records.extend(WIDE_LENGTHS.map(|length| [&field(length)[..], &field(kind), &[0; 260]].concat()));
        for (a, b) in (0..5).flat_map(|a| (0..5).map(move |b| (a, b))) {
            records.push(rule_bytes(&[entry(kind, a, b)]));
        }
    }
    records.extend((0..1_100).map(|edge| rule_bytes(&[label(edge)])));
    for far in [256, 65_535] {
        records.extend((0..=14).map(|kind| rule_bytes(&[entry(kind, far, 0)])));
        records.extend((0..=14).map(|kind| rule_bytes(&[entry(kind, 0, far)])));
    }
    let short = rule_bytes(&[TRUE; 2]);
    let full = rule_bytes(&[TRUE; 64]);
    let after = |front: &[u8], record: &Vec<u8>| [front, record].concat();
    let mut rules: Vec<Vec<u8>> = records.iter().map(|record| after(&short, record)).collect();
    rules.extend(records.iter().map(|record| after(&short[..4], record)));
    rules.extend(records.iter().step_by(7).map(|record| after(&full, record)));
    rules.extend(records.iter().step_by(3).map(|record| after(&short, record)[..7 + record.len()].to_vec()));
    let two = rule_bytes(&[TRUE, entry(5, 0, 0)]);
    rules.extend((1..=two.len()).map(|size| two[..size].to_vec()));
    rules
}

const KINDS: [u16; 23] = [0, 1, 2, 3, 4, 5, 6, 7, 8, 9, 10, 11, 12, 13, 14, 15, 16, 255, 256, 257, 258, 32_772, 65_535];

/// Lengths whose low byte is the length of some kind, those of records with their high bytes first, and the largest.
const WIDE_LENGTHS: [u16; 6] = [258, 260, 262, 512, 1_024, 65_535];

fn field(number: u16) -> [u8; 2] {
    number.to_le_bytes()
}

/// A rule refused by each of the numbers 1 to 4, one that looks ahead in an entry that the last one does not use, and
/// one that is accepted everywhere.
pub fn rules_by_number() -> Vec<Vec<u8>> {
    let mut rules = vec![vec![], vec![0; 513], rule_bytes(&[TRUE, entry(15, 0, 0)])];
    rules.push(rule_bytes(&[TRUE, entry(3, 1, 0)]));
    rules.push(rule_bytes(&[TRUE; 65]));
    rules.push(rule_bytes(&[TRUE, entry(14, 0, 0), entry(3, 0, 0)]));
    rules.push(sample_rules().swap_remove(1));
    rules
}

/// The sample, and reports at each edge.
pub fn reports() -> Vec<Vec<u8>> {
    use Tag::{Close, Open};
    let broad = |leaves: usize, then: &[Tag]| [&[Open(1)], &[Open(2), Close].repeat(leaves)[..], then].concat();
    let chain = |levels: usize| [vec![Open(3); levels], vec![Close; levels]].concat();
    let mut tags = vec![chain(63), chain(64), chain(65), broad(4_095, &[Close]), broad(4_096, &[Close])];
    tags.push(broad(4_094, &[Open(2), Open(2)]));
    tags.push(broad(4_094, &[Open(2), Open(2), Close]));
    tags.push(broad(4_095, &[]));
    tags.push(broad(4_031, &chain(64)));
    tags.push(broad(4_032, &[Open(3); 64]));
    tags.push(broad(4_033, &[Open(3); 63]));
    tags.push(vec![Open(1)]);
    tags.push(vec![Close]);
    tags.push(vec![Open(1), Close, Close]);
    tags.push(vec![Open(1), Close, Open(1)]);
    tags.push(vec![Open(1), Close, Open(0)]);
    tags.push([&[Open(3); 64][..], &[Open(0)]].concat());
    tags.push(broad(4_094, &[Open(2), Open(0)]));
    tags.push(broad(4_094, &[Open(2)]));
    tags.push(broad(4_095, &[Close, Open(1)]));
    tags.push([chain(64), vec![Open(1)]].concat());
    // Two faults: the first one decides.
    tags.push(vec![Open(1), Open(0), Close, Close, Close]);
    tags.push(vec![Open(1), Close, Close, Open(0)]);
    tags.push([&[Open(3); 65][..], &[Open(0)]].concat());
    tags.extend([0, 1, 999, 1_000, 65_535].map(|edge| vec![Open(edge), Close]));
    let mut reports: Vec<Vec<u8>> = tags.iter().map(|tags| report_bytes(tags)).collect();
    let one = report_bytes(&[Open(1), Close]);
    reports.extend([1, 2, 3].map(|stray| [&one[..], &[2, 0, 2][..stray]].concat()));
    reports.push([report_bytes(&broad(4_095, &[Close])), vec![0]].concat());
    reports.extend([0, 1, 3, 40_960, 40_961, 65_536].map(|len| vec![0; len]));
    reports.push(sample_report());
    reports
}

/// Every kind with every length and every label near the limits, as a report record: the first, one inside the root,
/// one after it, and one at level 64. Then reports cut at every byte of a record.
pub fn swept_reports() -> Vec<Vec<u8>> {
    use Tag::{Close, Open};
    let body = [0; 8];
    let mut records: Vec<Vec<u8>> = Vec::new();
    for kind in KINDS {
        records.extend((0..9).map(|length| [&field(length)[..], &field(kind), &body].concat()));
        records.extend((0..9).map(|length| [&field(length)[..], &field(kind)].concat()));
        records.extend(WIDE_LENGTHS.map(|length| [&field(length)[..], &field(kind), &[0; 260]].concat()));
    }
    records.extend((0..1_100).map(|edge| report_bytes(&[Open(edge)])));
    let fronts = [vec![], vec![Open(1)], vec![Open(1), Close], vec![Open(1); 64]].map(|tags| report_bytes(&tags));
    let close = report_bytes(&[Close]);
    let mut reports: Vec<Vec<u8>> =
        fronts.iter().flat_map(|front| records.iter().map(|record| [front, &record[..], &close].concat())).collect();
    let two = report_bytes(&[Open(1), Open(2), Close, Close]);
    reports.extend((1..=two.len()).map(|size| two[..size].to_vec()));
    let deepest = report_bytes(&[Open(3); 65]);
    reports.extend((1..6).map(|less| deepest[..deepest.len() - less].to_vec()));
    reports
}
