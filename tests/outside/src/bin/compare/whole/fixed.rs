//! Whole reports that every run has beside the samples: rules that part each kind from what is easily taken for it,
//! every kind on one element, ways as deep as a report goes, 4,096 elements, and buffers of all rooms; their texts, and the
//! longest one.

use super::{compare_print_with, compare_with, TEXT_ROOM};
use crate::edges::{entry, label, sample_report, sample_rules, TRUE};
use crate::inputs::report_bytes;
use crate::random::Random;
use crate::run::Run;
use outside::records::Tag::{Close, Open};
use outside::records::{elements, read_report, rule_bytes, Entry, Tag};

pub fn fixed_inputs(run: &mut Run, random: &mut Random) {
    for words in [0, 1, 5, 6, 7, 16, 17, 4_100] {
        compare_with(run, random, &sample_rules()[0], &sample_report(), words);
    }
    for report in small_reports() {
        let size = read_report(&report).map_or(0, |tags| elements(&tags));
        for words in [size - 1, size] {
            compare_with(run, random, &rule_bytes(&[TRUE]), &report, words);
        }
        for rule in small_rules() {
            compare_with(run, random, &rule_bytes(&rule), &report, size + 1);
        }
    }
    for rule in broad_rules() {
        compare_with(run, random, &rule_bytes(&rule), &broad(), 4_096);
    }
    for words in [4_095, 4_097, 4_100] {
        compare_with(run, random, &rule_bytes(&mixed()), &broad(), words);
    }
    fixed_texts(run, random);
}

fn fixed_texts(run: &mut Run, random: &mut Random) {
    let sample = sample_report();
    for bytes in [0, 1, 28, 29, 30, 92, 93, 94, 95, 96, 97, 98, 99, 100, TEXT_ROOM] {
        compare_print_with(run, random, &sample_rules()[0], &sample, bytes);
    }
    for report in small_reports() {
        for rule in [vec![TRUE], vec![TRUE, label(1)], vec![TRUE, entry(7, 0, 0)]] {
            compare_print_with(run, random, &rule_bytes(&rule), &report, TEXT_ROOM);
        }
    }
    for bytes in [56_274, 56_275, 56_276, TEXT_ROOM] {
        compare_print_with(run, random, &rule_bytes(&[TRUE]), &longest(), bytes);
    }
}

/// The report with the longest text: three digits for every label, and two for every level but ten.
fn longest() -> Vec<u8> {
    report_bytes(&[&[Open(999); 10][..], &[Open(100), Close].repeat(4_086)[..], &[Close; 10]].concat())
}

/// The sample, three siblings, cousins, one element, and reports of 64 levels.
fn small_reports() -> Vec<Vec<u8>> {
    let leaf = |label: u16| [Open(label), Close];
    let over = |label: u16, below: &[Tag]| [&[Open(label)], below, &[Close]].concat();
    let siblings = over(1, &[20, 30, 40].map(leaf).concat());
    let first = over(10, &[over(20, &leaf(30)), over(20, &leaf(40))].concat());
    let cousins = over(1, &[first, over(10, &over(20, &leaf(50)))].concat());
    let deepest = [over(10, &leaf(20)), over(10, &leaf(30))].concat();
    let mut tags = vec![siblings, cousins, leaf(1).to_vec(), (0..62).fold(deepest, |below, _| over(1, &below))];
    let ones = [1; 63];
    let gap = [&ones[..31], &[3], &ones[..31]].concat();
    for way in [&ones[..], &gap] {
        tags.push(chain(&[way, &[2]].concat()));
        tags.push(chain(&[&[2], way].concat()));
    }
    let mut reports: Vec<Vec<u8>> = tags.iter().map(|tags| report_bytes(tags)).collect();
    reports.push(sample_report());
    reports
}

/// One element inside the other, by their labels.
fn chain(labels: &[u16]) -> Vec<Tag> {
    [labels.iter().map(|label| Open(*label)).collect(), vec![Close; labels.len()]].concat()
}

fn small_rules() -> Vec<Vec<Entry>> {
    let mut rules = vec![vec![TRUE; 64], vec![label(2); 64], vec![TRUE, label(1)]];
    for kind in 3..=14 {
        rules.push(vec![TRUE, entry(kind, 0, 0)]);
        rules.push(vec![TRUE, entry(kind, 0, 0), entry(3, 1, 0)]);
    }
    // One step, from each label.
    for kind in [3, 6, 7, 8, 9, 14] {
        rules.extend([1, 2, 10, 20, 30, 40].map(|edge| vec![label(edge), entry(kind, 0, 0)]));
    }
    // A way, from anything and from each label to each other one.
    for kind in 10..=13 {
        for end in [1, 2, 10, 20, 30, 40] {
            rules.push(vec![TRUE, label(end), entry(kind, 0, 1)]);
            rules.push(vec![label(end), TRUE, entry(kind, 0, 1)]);
            rules.extend([1, 10, 20, 40].map(|on| vec![label(on), label(end), entry(kind, 0, 1)]));
        }
    }
    // The same step, one over the other.
    rules.extend([6, 7, 8, 9, 14].map(stacked));
    rules.push(vec![label(20), TRUE, entry(4, 0, 1), entry(5, 0, 1)]);
    rules.push(vec![TRUE, label(10), entry(11, 0, 1), entry(9, 2, 0), entry(7, 3, 0)]);
    rules
}

fn stacked(kind: u16) -> Vec<Entry> {
    (0..64).map(|own| if own == 0 { TRUE } else { entry(kind, own - 1, 0) }).collect()
}

/// A root and 4,095 leaves.
fn broad() -> Vec<u8> {
    report_bytes(&[&[Open(1)], &[Open(2), Close].repeat(4_095)[..], &[Close]].concat())
}

/// Rules for that report: each kind as the last entry of a short rule, and rules of 64 entries.
fn broad_rules() -> Vec<Vec<Entry>> {
    let first = [TRUE, label(2), label(1), entry(9, 0, 0), entry(8, 0, 0), entry(3, 3, 0), entry(3, 4, 0)];
    let last = [(6, 6, 0), (7, 2, 0), (8, 1, 0), (9, 1, 0), (10, 2, 6), (11, 1, 2), (12, 3, 6), (13, 4, 5), (14, 1, 0)];
    let mut rules: Vec<Vec<Entry>> =
        last.iter().map(|(kind, a, b)| [&first[..], &[entry(*kind, *a, *b)]].concat()).collect();
    rules.extend([stacked(8), stacked(9), mixed()]);
    rules
}

/// 64 entries of every kind, each over entries not far below it.
fn mixed() -> Vec<Entry> {
    let mut rule = vec![TRUE, label(2), label(1)];
    for own in 3..64 {
        rule.push(entry(3 + (own * 7) % 12, own - 1 - own % 3, own / 2));
    }
    rule
}
