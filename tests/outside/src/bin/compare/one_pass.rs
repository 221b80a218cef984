//! One pass: walks from start with refused calls between, and states that no walk reaches.

use crate::calls::Call;
use crate::edges;
use crate::exported;
use crate::inputs;
use crate::kept::Kept;
use crate::lent::Lent;
use crate::random::Random;
use crate::run::{hex, Run};
use outside::cause::{Cause, Reply};
use outside::one_pass::{self, DEPTH, ELEMENTS, PRESENCE, ROOT_CLOSED, STATE_BYTES, ZEROS};
use outside::records::{read_rule, rule_bytes, Tag};
use outside::{meaning, tree::Tree};

/// One call of the three; opening has a label.
#[derive(Clone, Copy, Debug)]
enum Step {
    Start,
    Open(u32),
    Close,
}

impl Step {
    fn call(self) -> Call {
        match self {
            Step::Start => Call::Start,
            Step::Open(_) => Call::Open,
            Step::Close => Call::Close,
        }
    }

    fn by_document(self, rule: &[u8], state: &mut [u8]) -> (Reply, Vec<Cause>) {
        match self {
            Step::Start => one_pass::start(state),
            Step::Open(label) => one_pass::open(rule, state, label),
            Step::Close => one_pass::close(rule, state),
        }
    }

    fn exported(self, rule: &Lent<u8>, state: &mut Lent<u8>) -> Reply {
        match self {
            Step::Start => exported::start(state),
            Step::Open(label) => exported::open(rule, state, label),
            Step::Close => exported::close(rule, state),
        }
    }
}

/// Makes one call both ways from the same state; gives the document's answer, and leaves the document's state.
fn compare(run: &mut Run, random: &mut Random, step: Step, rule: &[u8], state: &mut [u8]) -> Reply {
    let lent_rule = Lent::bytes(random, rule);
    let mut lent_state = Lent::bytes(random, state);
    let (due, causes) = step.by_document(rule, state);
    let reply = step.exported(&lent_rule, &mut lent_state);
    let kept = lent_rule.untouched() && lent_state.guards_kept();
    let input = || format!("  {step:?}\n{}\n{}", hex("rule", rule), hex("state", lent_state.lent()));
    run.same(step.call(), (due, true), (reply, kept), input);
    run.same(step.call(), lent_state.first_difference(state), None, input);
    let (argument, rule) = match step {
        Step::Start => (0, &[][..]),
        Step::Open(label) => (label, rule),
        Step::Close => (0, rule),
    };
    let answer = [due.number, due.place, due.found, 0];
    run.keep(&Kept { call: step.call(), argument, answer, rule, report: &[], before: lent_state.lent(), after: state });
    run.met(step.call(), &causes);
    due
}

// ---- walks

/// A walk from start along a report's tags, refused calls between them.
pub fn walk_input(run: &mut Run, random: &mut Random) {
    let labels = inputs::labels(random);
    let size = match random.below(400) {
        0..=299 => random.between(1, 12),
        300..=397 => random.between(1, 100),
        _ => 4_096,
    };
    let rule = if size > 1_000 {
        let count = random.between(1, 8);
        rule_bytes(&inputs::entries(random, count, &labels, true))
    } else {
        inputs::valid_rule(random, &labels, true)
    };
    let tags = inputs::valid_tags(random, size, &labels);
    walk(run, random, &rule, &tags, &labels);
}

/// Walks along the tags. The words and verdicts of the openings must be those of the meaning, too.
pub fn walk(run: &mut Run, random: &mut Random, rule: &[u8], tags: &[Tag], labels: &[u16]) {
    let entries = read_rule(rule).expect("a walk has a valid rule");
    let marks = meaning::marks(&entries, &Tree::of(tags));
    let words = meaning::words(&marks, marks[0].len());
    let verdicts = meaning::verdicts(&marks);

    let mut state = random.bytes(STATE_BYTES);
    compare(run, random, Step::Start, rule, &mut state);
    let mut opened = 0;
    for tag in tags {
        if random.chance(1, 6) {
            refused_call(run, random, rule, &state, labels);
        }
        let step = match tag {
            Tag::Open(label) => Step::Open(u32::from(*label)),
            Tag::Close => Step::Close,
        };
        let reply = compare(run, random, step, rule, &mut state);
        let verdict = matches!(tag, Tag::Open(_)) && verdicts[opened];
        let input = || format!("{}\n  one pass and the meaning, element {opened}", hex("rule", rule));
        run.same(step.call(), Reply::accepted(u32::from(verdict)), reply, input);
        if *tag != Tag::Close {
            let depth = one_pass::half(&state, DEPTH);
            let word = one_pass::word(&state, one_pass::open_word(depth - 1));
            run.same(step.call(), words[opened], word, input);
            opened += 1;
        }
    }
    for step in [Step::Close, Step::Open(1)] {
        let reply = compare(run, random, step, rule, &mut state);
        assert_eq!(reply.number, 7);
    }
}

/// A call between the tags that is refused, by its rule, its label, its state or the place it has come to.
fn refused_call(run: &mut Run, random: &mut Random, rule: &[u8], state: &[u8], labels: &[u16]) {
    let mut state = state.to_vec();
    let depth = one_pass::half(&state, DEPTH);
    let label = refused_label(random, labels);
    let other = inputs::any_rule(random, labels, false);
    let (step, rule) = match random.below(5) {
        _ if depth == 64 && random.chance(1, 2) => (Step::Open(u32::from(labels[0])), rule),
        0 | 1 => (Step::Open(label), rule),
        2 if depth == 0 => (Step::Close, rule),
        2 | 3 if read_rule(&other).is_err() => {
            (random.pick(&[Step::Close, Step::Open(label), Step::Open(u32::from(labels[0]))]), &other[..])
        }
        _ => {
            spoil_state(random, &mut state);
            (random.pick(&[Step::Close, Step::Open(u32::from(labels[0]))]), rule)
        }
    };
    let reply = compare(run, random, step, rule, &mut state);
    assert_ne!(reply.number, 0);
}

/// A label outside 1..999, often one whose low 16 bits are a label.
fn refused_label(random: &mut Random, labels: &[u16]) -> u32 {
    let label = u32::from(random.pick(labels));
    random.pick(&[0, 1_000, 1_001, 65_535, 65_536, 65_537, 65_536 + label, label << 16, 1 << 31 | label, u32::MAX])
}

// ---- states

/// A step from a state made at random: one that passes the test, or one that a clause makes bad.
pub fn state_input(run: &mut Run, random: &mut Random) {
    let labels = inputs::labels(random);
    let rule = match random.below(10) {
        0..=4 => inputs::valid_rule(random, &labels, true),
        5 => inputs::valid_rule(random, &labels, false),
        6 => rule_ahead(random, &labels),
        _ => inputs::any_rule(random, &labels, true),
    };
    let mut state = passing_state(random);
    if random.chance(1, 3) {
        spoil_state(random, &mut state);
    }
    let label = if random.chance(1, 5) { refused_label(random, &labels) } else { u32::from(random.pick(&labels)) };
    let step = match random.below(16) {
        0 => Step::Start,
        1..=6 => Step::Close,
        _ => Step::Open(label),
    };
    compare(run, random, step, &rule, &mut state);
}

/// Each fault of a call together with each other: which comes first.
pub fn orders(run: &mut Run, random: &mut Random) {
    // Depth, elements, root closed, bytes 6 and 7.
    const HEADS: [[u16; 4]; 17] = [
        [0, 0, 0, 0],
        [0, 4_096, 0, 0],
        [0, 1, 1, 0],
        [0, 4_096, 1, 0],
        [1, 1, 0, 0],
        [63, 4_095, 0, 0],
        [64, 64, 0, 0],
        [64, 4_096, 0, 0],
        [65, 65, 0, 0],
        [2, 1, 0, 0],
        [0, 4_097, 0, 0],
        [0, 1, 2, 0],
        [0, 1, 256, 0],
        [1, 1, 1, 0],
        [0, 0, 0, 1],
        [0, 0, 0, 256],
        [65, 4_097, 1, 257],
    ];
    for rule in edges::rules_by_number() {
        for [depth, elements, root_closed, zeros] in HEADS {
            for len in [STATE_BYTES, STATE_BYTES - 1, STATE_BYTES + 1, 0] {
                let mut state = random.bytes(STATE_BYTES);
                one_pass::set_half(&mut state, DEPTH, depth.into());
                one_pass::set_half(&mut state, ELEMENTS, elements.into());
                one_pass::set_half(&mut state, ROOT_CLOSED, root_closed.into());
                one_pass::set_half(&mut state, ZEROS, zeros.into());
                state.resize(len, 0);
                let opens = [0, 1, 20, 999, 1_000, 65_535, 65_536, 65_537, u32::MAX].map(Step::Open);
                for step in [Step::Start, Step::Close].into_iter().chain(opens) {
                    compare(run, random, step, &rule, &mut state.clone());
                }
            }
        }
    }
}

/// A rule that looks back but for entries of one kind, used by the last entry or not.
fn rule_ahead(random: &mut Random, labels: &[u16]) -> Vec<u8> {
    let count = random.between(2, 12);
    let mut entries = inputs::entries(random, count, labels, true);
    let at = random.between(1, count - 1);
    entries[at].kind = random.pick(&[6, 8, 10, 12, 14]);
    let own = at as u16;
    entries[at].a = entries[at].a.min(own - 1);
    entries[at].b = entries[at].b.min(own - 1);
    rule_bytes(&entries)
}

/// A state that passes the test, its words noise; depths and counts often at their limits.
fn passing_state(random: &mut Random) -> Vec<u8> {
    let mut state = random.bytes(STATE_BYTES);
    let depth = match random.below(4) {
        0 => 0,
        1 => random.pick(&[1, 2, 62, 63, 64]),
        _ => random.between(0, 64),
    };
    let elements = match random.below(4) {
        0 => depth,
        1 => random.pick(&[4_094, 4_095, 4_096]),
        _ => random.between(depth, 4_096),
    };
    let root_closed = if depth == 0 { random.below(2) } else { 0 };
    one_pass::set_half(&mut state, DEPTH, depth);
    one_pass::set_half(&mut state, ELEMENTS, elements);
    one_pass::set_half(&mut state, ROOT_CLOSED, root_closed);
    one_pass::set_half(&mut state, ZEROS, 0);
    if random.chance(1, 4) {
        let presence = random.pick(&[0, u64::MAX]);
        one_pass::set_word(&mut state, PRESENCE, presence);
    }
    state
}

/// Makes a passing state bad, by one clause where that can be.
fn spoil_state(random: &mut Random, state: &mut Vec<u8>) {
    let depth = one_pass::half(state, DEPTH);
    let elements = one_pass::half(state, ELEMENTS);
    match random.below(9) {
        0 | 1 => {
            let len = random.pick(&[0, 1, 2, 8, 1_024, 1_039, 1_041, 1_048, 2_080]);
            state.resize(len, 0);
        }
        2 => {
            let deep = random.pick(&[65, 66, 128, 256, 4_096, 65_535]);
            one_pass::set_half(state, DEPTH, deep);
            one_pass::set_half(state, ELEMENTS, elements.max(deep.min(4_096)));
            one_pass::set_half(state, ROOT_CLOSED, 0);
        }
        3 => {
            let depth = depth.max(1);
            let fewer = random.pick(&[0, depth - 1]);
            one_pass::set_half(state, DEPTH, depth);
            one_pass::set_half(state, ELEMENTS, fewer);
            one_pass::set_half(state, ROOT_CLOSED, 0);
        }
        4 => {
            let many = random.pick(&[4_097, 4_098, 8_192, 65_535]);
            one_pass::set_half(state, ELEMENTS, many);
        }
        5 => {
            one_pass::set_half(state, DEPTH, 0);
            let flag = random.pick(&[2, 3, 255, 256, 257, 512, 65_535]);
            one_pass::set_half(state, ROOT_CLOSED, flag);
        }
        6 => {
            let depth = depth.max(1);
            one_pass::set_half(state, DEPTH, depth);
            one_pass::set_half(state, ELEMENTS, elements.max(depth));
            one_pass::set_half(state, ROOT_CLOSED, 1);
        }
        7 => state[ZEROS] = random.pick(&[1, 128, 255]),
        _ => state[ZEROS + 1] = random.pick(&[1, 128, 255]),
    }
}
