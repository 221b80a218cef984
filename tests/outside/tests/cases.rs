//! The document's cases A to L and the program's sample, on this implementation.

mod common;

use common::{r, report, rule, rule_a, rule_b};
use outside::records::{read_report, read_rule, Tag};
use outside::{meaning, one_pass, program, tree::Tree, whole};

/// The words that one pass works out, tag by tag, over a report; and the verdicts at its openings.
fn pass(rule: &[u8], report: &[u8]) -> (Vec<u64>, Vec<u32>) {
    let mut state = vec![255; one_pass::STATE_BYTES];
    assert_eq!(one_pass::start(&mut state).0.number, 0);
    let (mut words, mut verdicts) = (vec![], vec![]);
    for tag in read_report(report).unwrap() {
        match tag {
            Tag::Open(label) => {
                let (reply, _) = one_pass::open(rule, &mut state, u32::from(label));
                assert_eq!((reply.number, reply.place), (0, 0));
                verdicts.push(reply.found);
                words.push(one_pass::word(&state, one_pass::open_word(one_pass::half(&state, one_pass::DEPTH) - 1)));
            }
            Tag::Close => {
                let (reply, _) = one_pass::close(rule, &mut state);
                assert_eq!((reply.number, reply.place, reply.found), (0, 0, 0));
            }
        }
    }
    (words, verdicts)
}

/// A case of the table: by the meaning, by the whole-report call, and by one pass where the rule looks back.
fn case(rule: &[u8], report: &[u8], words: &[u64], looks_back: bool) {
    let entries = read_rule(rule).unwrap();
    let tree = Tree::of(&read_report(report).unwrap());
    let marks = meaning::marks(&entries, &tree);
    assert_eq!(meaning::words(&marks, tree.size()), words);

    let last = entries.len() - 1;
    let mut buffer = vec![u64::MAX; words.len() + 1];
    let (reply, _) = whole::evaluate(rule, report, &mut buffer);
    let selected = words.iter().filter(|word| *word >> last & 1 == 1).count() as u32;
    let elements = words.len() as u32;
    assert_eq!(reply, whole::WholeReply { number: 0, place: 0, elements, selected });
    assert_eq!(buffer[..words.len()], *words);
    assert_eq!(buffer[words.len()], u64::MAX);

    if looks_back {
        assert_eq!(pass(rule, report).0, words);
    } else {
        let mut state = vec![0; one_pass::STATE_BYTES];
        assert_eq!(one_pass::open(rule, &mut state, 1).0.number, 10);
    }
}

#[test]
fn r_takes_60_bytes() {
    assert_eq!(r().len(), 60);
}

#[test]
fn case_a() {
    case(&rule_a(), &r(), &[1, 1, 27, 13, 1, 3], false);
}

#[test]
fn case_b() {
    case(&rule_b(), &r(), &[0, 1, 8, 0, 3, 28], true);
}

#[test]
fn case_c() {
    case(&rule(&[&[1]]), &report(&[Tag::Open(1), Tag::Close]), &[1], true);
}

#[test]
fn case_d() {
    case(&rule(&[&[1], &[7, 0]]), &r(), &[1, 3, 3, 3, 3, 3], true);
}

#[test]
fn case_e() {
    case(&rule(&[&[1], &[2, 10], &[11, 0, 1]]), &r(), &[1, 7, 5, 5, 7, 5], true);
}

#[test]
fn case_f() {
    case(&rule(&[&[2, 1], &[2, 10], &[10, 0, 1]]), &r(), &[5, 6, 0, 0, 6, 0], false);
}

#[test]
fn case_g() {
    case(&rule(&[&[2, 30], &[2, 20], &[13, 0, 1]]), &r(), &[0, 0, 6, 5, 0, 6], true);
}

#[test]
fn case_h() {
    case(&rule(&[&[2, 20], &[14, 0]]), &r(), &[0, 0, 1, 0, 2, 1], false);
}

#[test]
fn case_i() {
    case(&rule(&[&[2, 20], &[3, 0]]), &r(), &[2, 2, 1, 2, 2, 1], true);
}

#[test]
fn case_j() {
    case(&rule(&[&[2, 30], &[6, 0]]), &r(), &[0, 2, 0, 1, 0, 0], false);
}

#[test]
fn case_k() {
    case(&rule(&[&[2, 10], &[8, 0]]), &r(), &[0, 3, 0, 0, 1, 0], false);
}

#[test]
fn case_l() {
    assert_eq!(pass(&rule_b(), &r()).1, [0, 0, 0, 0, 0, 1]);
}

#[test]
fn the_program_on_rule_a_and_report_r() {
    let input = [&(rule_a().len() as u16).to_le_bytes()[..], &rule_a(), &r()].concat();
    let lines = [
        "element label level selected",
        "0 1 0 0",
        "1 10 1 0",
        "2 20 2 1",
        "3 30 2 0",
        "4 10 1 0",
        "5 20 2 0",
        "selected 1 of 6",
        "",
    ];
    assert_eq!(program::text(&input).0, lines.join("\n"));
}
