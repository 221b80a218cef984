//! The whole report: the answer and every word of the buffer; and its text, every byte of it.

mod fixed;

pub use fixed::fixed_inputs;

use crate::calls::Call;
use crate::exported;
use crate::inputs;
use crate::kept::Kept;
use crate::lent::Lent;
use crate::random::Random;
use crate::run::{hex, Run};
use outside::program::print;
use outside::records::{elements, read_report, rule_bytes};
use outside::whole::evaluate;

/// As many bytes as are always room for a text.
pub const TEXT_ROOM: usize = 81_920;

pub fn input(run: &mut Run, random: &mut Random) {
    let (rule, report) = rule_and_report(random);
    compare(run, random, &rule, &report);
}

pub fn print_input(run: &mut Run, random: &mut Random) {
    let (rule, report) = rule_and_report(random);
    compare_print(run, random, &rule, &report);
}

fn rule_and_report(random: &mut Random) -> (Vec<u8>, Vec<u8>) {
    let labels = inputs::labels(random);
    let size = inputs::element_count(random);
    let rule = match random.below(8) {
        0 => inputs::any_rule(random, &labels, false),
        _ if size > 1_000 && random.chance(7, 8) => {
            let count = random.between(1, 8);
            rule_bytes(&inputs::entries(random, count, &labels, false))
        }
        _ => inputs::valid_rule(random, &labels, false),
    };
    let report = if random.chance(1, 3) {
        inputs::any_report(random, size, &labels)
    } else {
        inputs::report_bytes(&inputs::valid_tags(random, size, &labels))
    };
    (rule, report)
}

/// How long a buffer is for what has so many parts: exact, longer or shorter, as it comes.
fn room(random: &mut Random, size: usize) -> usize {
    match random.below(8) {
        0..=2 => size,
        3..=5 => size + random.between(1, 9),
        6 => size - 1,
        _ => random.below(size),
    }
}

pub fn compare(run: &mut Run, random: &mut Random, rule: &[u8], report: &[u8]) {
    let size = read_report(report).map_or(3, |tags| elements(&tags));
    let words = room(random, size);
    compare_with(run, random, rule, report, words);
}

pub fn compare_with(run: &mut Run, random: &mut Random, rule: &[u8], report: &[u8], words: usize) {
    let before: Vec<u64> = (0..words).map(|_| random.next()).collect();
    let mut buffer = before.clone();
    let (due, causes) = evaluate(rule, report, &mut buffer);

    let [lent_rule, lent_report] = [rule, report].map(|bytes| Lent::bytes(random, bytes));
    let mut marks = Lent::words(random, &before);
    let reply = exported::evaluate(&lent_rule, &lent_report, &mut marks);
    let input = || format!("{}\n{}\n  buffer of {words} words", hex("rule", rule), hex("report", report));
    let kept = lent_rule.untouched() && lent_report.untouched() && marks.guards_kept();
    run.same(Call::Evaluate, (due, true), (reply, kept), input);
    run.same(Call::Evaluate, marks.first_difference(&buffer), None, input);
    let answer = [due.number, due.place, due.elements, due.selected];
    let [before, after] = [before, buffer].map(|words| in_memory(&words));
    run.keep(&Kept { call: Call::Evaluate, argument: 0, answer, rule, report, before: &before, after: &after });
    run.met(Call::Evaluate, &causes);
}

/// The text, in a buffer of any length.
fn compare_print(run: &mut Run, random: &mut Random, rule: &[u8], report: &[u8]) {
    let mut large = vec![0; TEXT_ROOM];
    let size = print(rule, report, &mut large).0.found.max(3) as usize;
    let bytes = room(random, size);
    compare_print_with(run, random, rule, report, bytes);
}

pub fn compare_print_with(run: &mut Run, random: &mut Random, rule: &[u8], report: &[u8], bytes: usize) {
    let before = random.bytes(bytes);
    let mut buffer = before.clone();
    let (due, causes) = print(rule, report, &mut buffer);

    let [lent_rule, lent_report] = [rule, report].map(|bytes| Lent::bytes(random, bytes));
    let mut text = Lent::text(random, &before);
    let reply = exported::print(&lent_rule, &lent_report, &mut text);
    let input = || format!("{}\n{}\n  buffer of {bytes} bytes", hex("rule", rule), hex("report", report));
    let kept = lent_rule.untouched() && lent_report.untouched() && text.guards_kept();
    run.same(Call::Print, (due, true), (reply, kept), input);
    run.same(Call::Print, text.first_difference(&buffer), None, input);
    let answer = [due.number, due.place, due.found, 0];
    run.keep(&Kept { call: Call::Print, argument: 0, answer, rule, report, before: &before, after: &buffer });
    run.met(Call::Print, &causes);
}

/// Words as they lie in memory: the low byte first, on the machines that the archives are for.
fn in_memory(words: &[u64]) -> Vec<u8> {
    words.iter().flat_map(|word| word.to_le_bytes()).collect()
}
