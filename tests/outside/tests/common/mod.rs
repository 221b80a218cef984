//! Rules and reports spelt by their records.
#![allow(dead_code)]

use outside::records::Tag::{self, Close, Open};

pub fn numbers(numbers: &[u16]) -> Vec<u8> {
    numbers.iter().flat_map(|number| number.to_le_bytes()).collect()
}

/// A rule from its records: a kind and its arguments.
pub fn rule(records: &[&[u16]]) -> Vec<u8> {
    records.iter().flat_map(|record| numbers(&[&[2 * record.len() as u16], *record].concat())).collect()
}

pub fn report(tags: &[Tag]) -> Vec<u8> {
    let record = |tag: &Tag| match tag {
        Open(label) => numbers(&[4, 1, *label]),
        Close => numbers(&[2, 2]),
    };
    tags.iter().flat_map(record).collect()
}

/// The document's report R.
pub fn r() -> Vec<u8> {
    let tags = [Open(1), Open(10), Open(20), Close, Open(30), Close, Close, Open(10), Open(20), Close, Close, Close];
    report(&tags)
}

pub fn rule_a() -> Vec<u8> {
    rule(&[&[1], &[2, 20], &[2, 30], &[12, 0, 2], &[5, 1, 3]])
}

pub fn rule_b() -> Vec<u8> {
    rule(&[&[2, 10], &[9, 0], &[7, 1], &[2, 20], &[5, 3, 2]])
}
