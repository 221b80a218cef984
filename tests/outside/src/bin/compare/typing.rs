//! Rules typed as paths: the answer, every lent byte, and what the rule that was written selects.

use crate::calls::Call;
use crate::exported;
use crate::inputs;
use crate::kept::Kept;
use crate::lent::Lent;
use crate::random::Random;
use crate::run::{hex, Run};
use crate::text_edges;
use crate::texts;
use outside::cause::{met, Cause, Reply};
use outside::one_pass::STATE_BYTES;
use outside::records::{elements, rule_bytes, Entry, Tag};
use outside::tree::Tree;
use outside::typed::pairs::{self, Elements};
use outside::typed::{grammar, read_path, translation};

pub fn input(run: &mut Run, random: &mut Random) {
    let text = texts::any_text(random);
    compare(run, random, &text);
}

/// The texts that every run has, with every room that matters.
pub fn fixed_inputs(run: &mut Run, random: &mut Random) {
    for text in text_edges::texts() {
        let size = rule_size(&text).unwrap_or(1);
        for room in [0, size - 1, size, size + 1, 512] {
            compare_with(run, random, &text, room);
        }
    }
    for text in text_edges::swept() {
        compare(run, random, &text);
    }
}

/// How many bytes the rule of a text has, also where it has too many entries.
fn rule_size(text: &[u8]) -> Option<usize> {
    let test = grammar::read(text).ok()?;
    Some(rule_bytes(&translation::entries(&test)).len())
}

/// Compares with a buffer that is exact, longer or shorter, as it comes.
fn compare(run: &mut Run, random: &mut Random, text: &[u8]) {
    let size = rule_size(text).unwrap_or(3);
    let room = match random.below(8) {
        0..=2 => size,
        3..=5 => size + random.between(1, 40),
        6 => size - 1,
        _ => random.below(size),
    };
    compare_with(run, random, text, room);
}

fn compare_with(run: &mut Run, random: &mut Random, text: &[u8], room: usize) {
    let before = random.bytes(room);
    let mut buffer = before.clone();
    let (due, causes) = read_path(text, &mut buffer);

    let lent_text = Lent::text(random, text);
    let mut lent_rule = Lent::bytes(random, &before);
    let reply = exported::read_path(&lent_text, &mut lent_rule);
    let input = || format!("{}\n  buffer of {room} bytes", spelt(text));
    let kept = lent_text.untouched() && lent_rule.guards_kept();
    run.same(Call::ReadPath, (due, true), (reply, kept), input);
    run.same(Call::ReadPath, lent_rule.first_difference(&buffer), None, input);
    let answer = [due.number, due.place, due.found, 0];
    run.keep(&Kept {
        call: Call::ReadPath,
        argument: 0,
        answer,
        rule: text,
        report: &[],
        before: &before,
        after: &buffer,
    });
    run.met(Call::ReadPath, &causes);
    if due.number == 0 {
        compare_rule(run, random, text, &lent_rule.content()[..due.found as usize]);
    }
}

/// Text as it is typed, and its bytes.
fn spelt(text: &[u8]) -> String {
    format!("  {:?}\n{}", String::from_utf8_lossy(text), hex("text", text))
}

/// The rule that was written for a text: the rule reader takes it, and on a report it selects the text's own elements.
/// Its bytes have been compared by now, so a difference is put down to the call that was made with them.
fn compare_rule(run: &mut Run, random: &mut Random, text: &[u8], rule: &[u8]) {
    let test = grammar::read(text).expect("an accepted text has a tree");
    assert_eq!(test.text().as_bytes(), text, "a text is the text of its tree");
    let entries = translation::entries(&test);
    let input = || format!("{}\n{}", spelt(text), hex("rule", rule));
    let taken = exported::read_rule(&Lent::bytes(random, rule));
    run.same(Call::ReadRule, Reply::accepted(entries.len() as u32), taken, input);

    let tags = report_tags(random, &entries);
    let due = pairs::elements(&test, &Tree::of(&tags));
    let some = !due.is_empty() && due.len() < elements(&tags);
    run.met(Call::ReadPath, &met([(some, Cause::TextSelectsSome)]));
    let input = || format!("{}\n{}", input(), hex("report", &inputs::report_bytes(&tags)));
    run.same(Call::Evaluate, &due, &evaluated(random, rule, &tags, entries.len() - 1), input);
    let at_opening = (!test.looks_ahead()).then_some(due);
    run.same(Call::Open, at_opening, opened(random, rule, &tags), input);
}

/// The elements that the exported evaluator selects: those with the bit of the last entry.
fn evaluated(random: &mut Random, rule: &[u8], tags: &[Tag], last: usize) -> Elements {
    let lent_report = Lent::bytes(random, &inputs::report_bytes(tags));
    let mut marks = Lent::words(random, &vec![0; elements(tags)]);
    exported::evaluate(&Lent::bytes(random, rule), &lent_report, &mut marks);
    let selected = |s: &usize| marks.content()[*s] >> last & 1 == 1;
    (0..marks.len()).filter(selected).collect()
}

/// The elements that the exported one pass selects when they open; none where it does not take the rule, by 10.
fn opened(random: &mut Random, rule: &[u8], tags: &[Tag]) -> Option<Elements> {
    let lent_rule = Lent::bytes(random, rule);
    let mut state = Lent::bytes(random, &[0; STATE_BYTES]);
    let mut verdicts = vec![];
    for tag in tags {
        match tag {
            Tag::Close => exported::close(&lent_rule, &mut state),
            Tag::Open(label) => {
                let reply = exported::open(&lent_rule, &mut state, u32::from(*label));
                if reply.number == 10 {
                    return None;
                }
                verdicts.push(reply.found == 1);
                reply
            }
        };
    }
    Some((0..verdicts.len()).filter(|s| verdicts[*s]).collect())
}

/// The tags of a small report that has the labels of the entries. Pairs grow with the square of its size, and a rule
/// with many entries makes them often.
fn report_tags(random: &mut Random, entries: &[Entry]) -> Vec<Tag> {
    let mut labels = inputs::labels(random);
    labels.extend(entries.iter().filter(|entry| entry.kind == 2).map(|entry| entry.a));
    let size = match random.below(64) {
        _ if entries.len() > 16 => random.between(1, 9),
        0 => random.between(1, 60),
        _ => random.between(1, 16),
    };
    inputs::valid_tags(random, size, &labels)
}
