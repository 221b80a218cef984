//! Rules and reports: valid ones, ones damaged near the format, and noise.

use crate::random::Random;
use outside::records::{looks_ahead, rule_bytes, Entry, Tag};

/// Numbers at which something in the format changes.
const NEAR: [u16; 30] = [
    0, 1, 2, 3, 4, 5, 6, 7, 8, 9, 10, 12, 13, 14, 15, 16, 62, 63, 64, 65, 255, 256, 258, 998, 999, 1_000, 1_001,
    32_768, 65_534, 65_535,
];
const KINDS_NEAR: [u16; 19] = [0, 1, 2, 3, 4, 5, 6, 7, 8, 9, 10, 11, 12, 13, 14, 15, 16, 256, 65_535];
const LABEL_EDGES: [u16; 5] = [0, 1, 999, 1_000, 65_535];

/// The labels of one input: few, so that rules and reports meet.
pub fn labels(random: &mut Random) -> Vec<u16> {
    let count = random.between(1, 5);
    (0..count)
        .map(|_| if random.chance(1, 4) { random.pick(&[1, 999]) } else { random.between(1, 999) as u16 })
        .collect()
}

// ---- rules

/// `count` entries that name earlier ones, often near ones; with `back` only kinds that look back.
pub fn entries(random: &mut Random, count: usize, labels: &[u16], back: bool) -> Vec<Entry> {
    let wide = random.chance(1, 8);
    let mut entries = Vec::new();
    for own in 0..count {
        let kind = loop {
            let kind = match own {
                0 => random.pick(&[1, 2, 2, 2]),
                _ if wide => random.pick(&[4, 5, 10, 11, 12, 13]),
                _ if own < 4 && random.chance(1, 2) => 2,
                _ => random.between(1, 14) as u16,
            };
            if !(back && looks_ahead(kind)) {
                break kind;
            }
        };
        let earlier = |random: &mut Random| match own {
            0 => 0,
            _ if random.chance(1, 2) => (own - 1 - random.below(own.min(3))) as u16,
            _ => random.below(own) as u16,
        };
        let (a, b) = (earlier(random), earlier(random));
        let a = if kind == 2 { random.pick(labels) } else { a };
        entries.push(Entry { kind, a, b });
    }
    entries
}

/// How many entries a rule gets: mostly few.
pub fn entry_count(random: &mut Random) -> usize {
    match random.below(20) {
        0..=11 => random.between(1, 6),
        12..=16 => random.between(1, 20),
        17..=18 => random.between(1, 64),
        _ => 64,
    }
}

pub fn valid_rule(random: &mut Random, labels: &[u16], back: bool) -> Vec<u8> {
    let count = entry_count(random);
    rule_bytes(&entries(random, count, labels, back))
}

/// One entry gets a kind, an entry number or a label near the limits.
fn spoil_entry(random: &mut Random, entries: &mut [Entry]) {
    let own = random.below(entries.len());
    let entry = &mut entries[own];
    let own = own as u16;
    let near = [own, own + 1, own.saturating_sub(1), 64, 65_535];
    match random.below(6) {
        0 => *entry = Entry { kind: 2, a: random.pick(&LABEL_EDGES), b: 0 },
        1 if entry.kind == 2 => entry.a = random.pick(&LABEL_EDGES),
        1 | 2 if entry.kind > 2 => entry.a = random.pick(&near),
        3 | 4 => entry.b = random.pick(&near),
        _ => entry.kind = random.pick(&KINDS_NEAR),
    }
}

/// A rule whose size is at the limits: 510 to 513 bytes, or 0 to 5.
fn rule_at_limits(random: &mut Random, labels: &[u16]) -> Vec<u8> {
    let size = if random.chance(1, 4) { random.between(0, 5) } else { random.between(506, 514) };
    if random.chance(1, 4) {
        return random.bytes(size);
    }
    let mut full = vec![Entry { kind: 2, a: random.pick(labels), b: 0 }];
    let kinds = if random.chance(1, 2) { [4, 5, 11, 13, 4, 5] } else { [4, 5, 10, 11, 12, 13] };
    for own in 1..random.pick(&[63, 64, 64, 64]) {
        full.push(Entry { kind: random.pick(&kinds), a: random.below(own) as u16, b: random.below(own) as u16 });
    }
    let mut bytes = rule_bytes(&full);
    bytes.truncate(size);
    while bytes.len() < size {
        bytes.push(random.pick(&[0, 1, 2, 4, 6]));
    }
    bytes
}

/// Any rule: valid, damaged, at the limits of its size, one entry too many, or noise.
pub fn any_rule(random: &mut Random, labels: &[u16], back: bool) -> Vec<u8> {
    match random.below(16) {
        0..=3 => valid_rule(random, labels, back),
        4..=7 => {
            let count = entry_count(random);
            let mut entries = entries(random, count, labels, back);
            for _ in 0..random.between(1, 2) {
                spoil_entry(random, &mut entries);
            }
            rule_bytes(&entries)
        }
        8..=11 => {
            let mut bytes = valid_rule(random, labels, back);
            for _ in 0..random.between(1, 2) {
                damage(random, &mut bytes);
            }
            bytes
        }
        12 | 13 => rule_at_limits(random, labels),
        14 => {
            let count = random.between(64, 70);
            let short: Vec<Entry> = (0..count).map(|_| Entry { kind: 1, a: 0, b: 0 }).collect();
            let mut bytes = rule_bytes(&short);
            let stray = random.below(4);
            bytes.truncate(bytes.len() - stray);
            bytes
        }
        _ => {
            let len = random.pick(&[0, 1, 2, 3, 4, 5, 6, 7, 8, 20, 100, 600]);
            random.bytes(len)
        }
    }
}

// ---- reports

pub fn report_bytes(tags: &[Tag]) -> Vec<u8> {
    let mut bytes = Vec::new();
    for tag in tags {
        let fields: &[u16] = match tag {
            Tag::Open(label) => &[4, 1, *label],
            Tag::Close => &[2, 2],
        };
        bytes.extend(fields.iter().flat_map(|field| field.to_le_bytes()));
    }
    bytes
}

/// The tags of a tree of `size` elements on at most `levels` levels; it opens rather than closes `open` times of 16.
pub fn tree_tags(random: &mut Random, size: usize, levels: usize, open: usize, labels: &[u16]) -> Vec<Tag> {
    let mut tags = vec![Tag::Open(random.pick(labels))];
    let (mut depth, mut made) = (1, 1);
    while made < size {
        if depth < levels && (depth == 1 || random.chance(open, 16)) {
            tags.push(Tag::Open(random.pick(labels)));
            depth += 1;
            made += 1;
        } else {
            tags.push(Tag::Close);
            depth -= 1;
        }
    }
    tags.extend(vec![Tag::Close; depth]);
    tags
}

/// How many elements a report gets: mostly few, now and then all 4,096.
pub fn element_count(random: &mut Random) -> usize {
    match random.below(200) {
        0..=19 => random.between(1, 2),
        20..=159 => random.between(1, 30),
        160..=193 => random.between(1, 200),
        194..=198 => random.between(1, 2_000),
        _ => random.pick(&[4_095, 4_096, 4_096]),
    }
}

/// The tags of a valid report: flat, bushy or deep.
pub fn valid_tags(random: &mut Random, size: usize, labels: &[u16]) -> Vec<Tag> {
    let levels = random.pick(&[2, 3, 4, 8, 20, 63, 64, 64]);
    let open = if levels >= 63 { random.pick(&[8, 12, 15, 15]) } else { random.between(2, 14) };
    tree_tags(random, size, levels, open, labels)
}

/// One tag is put in, taken out, or gets a label near the limits; or the report is a level too deep.
fn spoil_tags(random: &mut Random, tags: &mut Vec<Tag>, labels: &[u16]) {
    let at = random.below(tags.len());
    let extra = if random.chance(1, 2) { Tag::Close } else { Tag::Open(random.pick(labels)) };
    match random.below(8) {
        0 => tags.insert(at, extra),
        1 => {
            tags.remove(at);
        }
        2 | 3 => tags[at] = Tag::Open(random.pick(&LABEL_EDGES)),
        4 => tags.push(extra),
        5 => tags.insert(0, extra),
        6 => tags.truncate(at),
        _ => {
            let deep = random.between(62, 66);
            let label = random.pick(labels);
            *tags = [vec![Tag::Open(label); deep], vec![Tag::Close; deep]].concat();
        }
    }
}

/// A report near 40,960 bytes and 4,096 elements, cut or padded to a size from 40,950 to 40,972.
fn report_at_limits(random: &mut Random, labels: &[u16]) -> Vec<u8> {
    let label = random.pick(labels);
    let leaf = [Tag::Open(label), Tag::Close];
    let mut tags = vec![Tag::Open(label)];
    tags.extend(leaf.repeat(random.between(4_093, 4_096)));
    match random.below(4) {
        0 => tags.extend([Tag::Open(label), Tag::Open(label)]),
        1 => tags.extend([Tag::Open(label), Tag::Close, Tag::Close]),
        2 => tags.push(Tag::Close),
        _ => {}
    }
    let mut bytes = report_bytes(&tags);
    if random.chance(1, 2) {
        let size = random.between(40_950, 40_972);
        let padding = random.pick(&[&[2, 0, 2, 0][..], &[4, 0, 1, 0, 7, 0], &[0], &[255]]);
        bytes.truncate(size);
        let missing = size - bytes.len();
        bytes.extend(padding.iter().cycle().take(missing));
    }
    bytes
}

/// Any report: valid, damaged, at the limits of its size, or noise. `size` is how many elements a valid one has.
pub fn any_report(random: &mut Random, size: usize, labels: &[u16]) -> Vec<u8> {
    match random.below(32) {
        0..=9 => report_bytes(&valid_tags(random, size, labels)),
        10..=18 => {
            let mut tags = valid_tags(random, size, labels);
            for _ in 0..random.between(1, 2) {
                if !tags.is_empty() {
                    spoil_tags(random, &mut tags, labels);
                }
            }
            report_bytes(&tags)
        }
        19..=28 => {
            let mut bytes = report_bytes(&valid_tags(random, size, labels));
            for _ in 0..random.between(1, 2) {
                damage(random, &mut bytes);
            }
            bytes
        }
        29 => report_at_limits(random, labels),
        _ => {
            let len = random.pick(&[0, 1, 2, 3, 4, 5, 6, 7, 8, 10, 20, 100]);
            random.bytes(len)
        }
    }
}

// ---- both

/// One wound: a field that is wrong, a piece that is missing, a piece too many.
pub fn damage(random: &mut Random, bytes: &mut Vec<u8>) {
    if bytes.len() < 2 {
        bytes.push(random.byte());
        return;
    }
    let at = random.below(bytes.len());
    let field = at / 2 * 2;
    match random.below(12) {
        0..=4 if field + 2 <= bytes.len() => {
            let value = random.pick(&NEAR);
            bytes[field..field + 2].copy_from_slice(&value.to_le_bytes());
        }
        5 => bytes.truncate(at),
        6 => bytes.truncate(bytes.len() - random.between(1, bytes.len().min(8))),
        7 => {
            let count = random.between(1, 5);
            bytes.extend(random.bytes(count));
        }
        8 => bytes.extend([2, 0, random.pick(&[1, 2]), 0]),
        9 => {
            bytes.remove(at);
        }
        10 => bytes.insert(at, random.pick(&[0, 1, 2, 4, 255])),
        _ => bytes[at] ^= 1 << random.below(8),
    }
}
