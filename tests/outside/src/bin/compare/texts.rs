//! Texts of rules typed as paths: from trees, damaged near the grammar, at the limits of their size, and noise.

use crate::inputs;
use crate::random::Random;
use outside::typed::syntax::{Axis, Path, Step, Test, AXES};

/// Words, signs, numbers and spaces, right ones and ones beside them.
const PIECES: [&str; 29] = [
    "true", "label ", "label", "not ", "not", "or", " or ", "(", ")", ")*", "<", ">", "/", "?", "*", " ", "child",
    "parent", "right", "left", "lab", "0", "1", "9", "20", "999", "1000", "007", "TRUE",
];

/// What the trees of one text are made of.
struct Choice {
    labels: Vec<u16>,
    axes: &'static [Axis],
}

impl Choice {
    /// Few labels; often only the axes that look back.
    fn any(random: &mut Random) -> Choice {
        let axes: &[Axis] = if random.chance(1, 3) { &[Axis::Parent, Axis::Left] } else { &AXES };
        Choice { labels: inputs::labels(random), axes }
    }

    /// A test of exactly so many entries.
    fn test(&self, random: &mut Random, entries: usize) -> Test {
        match random.below(8) {
            0 | 1 if entries == 1 => Test::True,
            _ if entries == 1 => Test::Label(random.pick(&self.labels)),
            0 | 1 => Test::negation(self.test(random, entries - 1)),
            2..=4 if entries > 2 => {
                let left = random.between(1, entries - 2);
                Test::or(self.test(random, left), self.test(random, entries - 1 - left))
            }
            _ => Test::Path(self.path(random, entries - 1)),
        }
    }

    /// A path whose steps have exactly so many entries together.
    fn path(&self, random: &mut Random, entries: usize) -> Path {
        let mut path = vec![];
        let mut left = entries;
        while left > 0 {
            let own = random.between(1, left).min(random.between(1, 12));
            path.push(self.step(random, own));
            left -= own;
        }
        path
    }

    /// A step of exactly so many entries.
    fn step(&self, random: &mut Random, entries: usize) -> Step {
        let axis = random.pick(self.axes);
        let beside_test = if axis == Axis::Child { 4 } else { 2 };
        match entries {
            1 => Step::Axis(axis),
            2 if random.chance(1, 2) => Step::Star(axis),
            _ if entries > beside_test && random.chance(1, 2) => {
                Step::Conditional(axis, self.test(random, entries - beside_test))
            }
            _ => Step::Test(self.test(random, entries - 1)),
        }
    }
}

fn tree_text(random: &mut Random, entries: usize) -> Vec<u8> {
    Choice::any(random).test(random, entries).text().into_bytes()
}

/// Few entries, or as many as a rule can have and a few less or more.
fn entry_count(random: &mut Random) -> usize {
    if random.chance(1, 3) {
        random.between(62, 67)
    } else {
        inputs::entry_count(random)
    }
}

/// One wound: a byte or a space too many, too few or in the wrong place, a piece too many, a number that is none.
fn damage(random: &mut Random, text: &mut Vec<u8>) {
    if text.is_empty() {
        text.push(random.byte());
        return;
    }
    let at = random.below(text.len());
    let of = |wanted: fn(&u8) -> bool| (0..text.len()).filter(|at| wanted(&text[*at])).collect::<Vec<usize>>();
    let (spaces, digits) = (of(|byte| *byte == b' '), of(u8::is_ascii_digit));
    let piece = random.pick(&PIECES).bytes();
    match random.below(12) {
        0 | 1 => {
            text.remove(at);
        }
        2 => text.insert(at, text[at]),
        3 if at + 1 < text.len() => text.swap(at, at + 1),
        4 => text[at] = random.byte(),
        5 => text.insert(at, b' '),
        6 if !spaces.is_empty() => {
            text.remove(random.pick(&spaces));
        }
        7 if !digits.is_empty() => {
            let at = random.pick(&digits);
            let number = random.pick(&["0", "00", "01", "1000", "10000", "99", "999", "9999", "x"]);
            text.splice(at..=at, number.bytes());
        }
        8 => text.truncate(at),
        9 => {
            text.splice(at..at, piece);
        }
        10 => text.extend(piece),
        _ => text[at] = random.pick(&PIECES).as_bytes()[0],
    }
}

fn damaged_text(random: &mut Random) -> Vec<u8> {
    let entries = entry_count(random);
    let mut text = tree_text(random, entries);
    for _ in 0..random.between(1, 2) {
        damage(random, &mut text);
    }
    text
}

/// Many more than 64 entries, often with something wrong near the end, and often near 1,024 bytes.
fn long_text(random: &mut Random) -> Vec<u8> {
    let mut text = if random.chance(1, 2) {
        let entries = random.between(65, 170);
        tree_text(random, entries)
    } else {
        let unit = random.pick(&["not ", "(", "<?", "(true or", "<left/", "<(child?", "not<?", "(not not "]);
        let size = random.between(1_018, 1_029);
        unit.bytes().cycle().take(size).collect()
    };
    if random.chance(1, 3) {
        let size = text.len().saturating_sub(random.between(0, 9));
        text.truncate(size);
        text.extend(random.pick(&PIECES).bytes());
    }
    text
}

/// Any text.
pub fn any_text(random: &mut Random) -> Vec<u8> {
    match random.below(16) {
        0..=6 => {
            let entries = entry_count(random);
            tree_text(random, entries)
        }
        7..=11 => damaged_text(random),
        12 => long_text(random),
        13 | 14 => {
            let count = random.between(1, 12);
            (0..count).flat_map(|_| random.pick(&PIECES).bytes()).collect()
        }
        _ => {
            let len = random.pick(&[0, 1, 2, 3, 4, 5, 20, 100, 1_024, 1_025]);
            random.bytes(len)
        }
    }
}
