//! The document's edges and the sentences that are easy to misread, on this implementation.

mod common;

use common::{numbers, r, report, rule, rule_a, rule_b};
use outside::cause::Reply;
use outside::one_pass::{self, DEPTH, ELEMENTS, ROOT_CLOSED, STATE_BYTES};
use outside::records::Tag::{self, Close, Open};
use outside::records::{report_reply, rule_reply};
use outside::tally::{count, Tally};
use outside::{program, whole};

fn rule_gives(rule: &[u8], number: u32, place: u32, found: u32) {
    assert_eq!(rule_reply(rule).0, Reply { number, place, found });
}

fn report_gives(report: &[u8], number: u32, place: u32, found: u32) {
    assert_eq!(report_reply(report).0, Reply { number, place, found });
}

fn tags_give(tags: &[Tag], number: u32, place: u32, found: u32) {
    report_gives(&report(tags), number, place, found);
}

/// A root, `leaves` closed leaves, then more tags.
fn broad(leaves: usize, then: &[Tag]) -> Vec<Tag> {
    [&[Open(1)], &[Open(2), Close].repeat(leaves)[..], then].concat()
}

fn ones(entries: usize) -> Vec<u8> {
    rule(&vec![&[1][..]; entries])
}

#[test]
fn levels() {
    tags_give(&[vec![Open(1); 64], vec![Close; 64]].concat(), 0, 0, 64);
    tags_give(&[vec![Open(1); 65], vec![Close; 65]].concat(), 8, 384, 0);
}

#[test]
fn elements() {
    let full = broad(4_095, &[Close]);
    assert_eq!(report(&full).len(), 40_960);
    tags_give(&full, 0, 0, 4_096);
    let over = broad(4_094, &[Open(2), Open(2)]);
    assert_eq!(report(&over).len(), 40_958);
    tags_give(&over, 8, 40_952, 0);
    let long = broad(4_096, &[Close]);
    assert_eq!(report(&long).len(), 40_970);
    tags_give(&long, 5, 0, 0);
}

#[test]
fn entries() {
    rule_gives(&ones(64), 0, 0, 64);
    rule_gives(&ones(65), 4, 256, 0);
    rule_gives(&[&ones(64)[..], &[0]].concat(), 4, 256, 0);
}

#[test]
fn rule_sizes() {
    let longest = [rule(&[&[2, 1]]), rule(&vec![&[4, 0, 0][..]; 63])].concat();
    assert_eq!(longest.len(), 510);
    rule_gives(&longest, 0, 0, 64);
    rule_gives(&[&longest[..], &[1]].concat(), 4, 510, 0);
    rule_gives(&[&longest[..], &[1, 2]].concat(), 4, 510, 0);
    rule_gives(&[&longest[..], &[1, 2, 3]].concat(), 1, 0, 0);
    rule_gives(&[], 1, 0, 0);
}

#[test]
fn rule_records() {
    rule_gives(&[2, 0, 1], 2, 0, 0);
    rule_gives(&numbers(&[2, 0]), 2, 0, 0);
    rule_gives(&numbers(&[2, 15]), 2, 0, 0);
    rule_gives(&numbers(&[2, 1, 4, 1, 0]), 2, 4, 0);
    rule_gives(&numbers(&[2, 1, 4, 3]), 2, 4, 0);
    rule_gives(&numbers(&[4, 3, 0]), 3, 0, 0);
    rule_gives(&numbers(&[2, 1, 6, 4, 0, 1]), 3, 4, 0);
    rule_gives(&numbers(&[2, 1, 6, 4, 0, 0]), 0, 0, 2);
}

#[test]
fn labels() {
    for (label, number) in [(0, 3), (1, 0), (999, 0), (1_000, 3), (65_535, 3)] {
        rule_gives(&rule(&[&[2, label]]), number, 0, u32::from(number == 0));
    }
    for (label, number) in [(0, 6), (1, 0), (999, 0), (1_000, 6), (65_535, 6)] {
        tags_give(&[Open(label), Close], number, 0, u32::from(number == 0));
    }
}

#[test]
fn tags_out_of_order() {
    tags_give(&[Open(1)], 7, 6, 0);
    tags_give(&[Close], 7, 0, 0);
    tags_give(&[Open(1), Close, Open(1)], 7, 10, 0);
    tags_give(&[Open(1), Close, Close], 7, 10, 0);
    tags_give(&[Open(1), Close, Open(0)], 6, 10, 0);
    report_gives(&[&report(&[Open(1), Close])[..], &[2, 0, 2]].concat(), 6, 10, 0);
    report_gives(&[], 5, 0, 0);
}

#[test]
fn the_order_of_a_whole_report() {
    let number = |rule: &[u8], report: &[u8], words: usize| {
        let mut buffer = vec![7; words];
        let (reply, _) = whole::evaluate(rule, report, &mut buffer);
        assert!(reply.number == 0 || reply.elements == 0 && reply.selected == 0 && buffer == vec![7; words]);
        (reply.number, reply.place)
    };
    let faulty = report(&[Open(1), Open(0)]);
    assert_eq!(number(&rule_a(), &faulty, 0), (6, 6));
    assert_eq!(number(&rule_a(), &r(), 5), (9, 0));
    assert_eq!(number(&rule_a(), &r(), 6), (0, 0));
    assert_eq!(number(&[], &faulty, 0), (1, 0));
    assert_eq!(number(&rule(&[&[3, 0]]), &[], 0), (3, 0));
    assert_eq!(number(&rule_a(), &[], 0), (5, 0));
}

#[test]
fn the_order_of_one_pass() {
    let ahead = rule(&[&[1], &[6, 0], &[3, 0]]);
    let open = |rule: &[u8], state: &[u8], label: u32| {
        let mut after = state.to_vec();
        let (reply, _) = one_pass::open(rule, &mut after, label);
        assert!(reply.number == 0 || after == state && reply.found == 0);
        (reply.number, reply.place)
    };
    let mut state = vec![0; STATE_BYTES];
    assert_eq!(open(&rule_b(), &state, 65_537), (6, 0));
    one_pass::set_half(&mut state, ROOT_CLOSED, 1);
    one_pass::set_half(&mut state, ELEMENTS, 4_096);
    assert_eq!(open(&rule_b(), &state, 0), (6, 0));
    assert_eq!(open(&rule_b(), &state, 1), (7, 0));
    assert_eq!(open(&ahead, &state[1..], 0), (10, 0));
    assert_eq!(open(&rule_b(), &state[1..], 0), (11, 0));
    assert_eq!(open(&rule(&[&[1], &[3, 1]]), &state[1..], 0), (3, 4));
    one_pass::set_half(&mut state, ROOT_CLOSED, 0);
    assert_eq!(open(&rule_b(), &state, 1), (8, 0));
}

#[test]
fn the_flag_alone_says_that_the_root_is_closed() {
    let mut state = vec![0; STATE_BYTES];
    one_pass::set_half(&mut state, ELEMENTS, 3);
    assert_eq!(one_pass::open(&rule_b(), &mut state, 1).0.number, 0);
    assert_eq!(one_pass::half(&state, DEPTH), 1);
    assert_eq!(one_pass::half(&state, ELEMENTS), 4);
    state[ROOT_CLOSED + 1] = 1;
    assert_eq!(one_pass::close(&rule_b(), &mut state).0.number, 11);
}

#[test]
fn closing_leaves_the_open_word_and_opening_the_last_word() {
    let mut state = vec![0; STATE_BYTES];
    one_pass::open(&rule_b(), &mut state, 10);
    let word = one_pass::word(&state, one_pass::open_word(0));
    assert_eq!(word, 1);
    one_pass::close(&rule_b(), &mut state);
    assert_eq!(one_pass::word(&state, one_pass::open_word(0)), 1);
    assert_eq!(one_pass::word(&state, one_pass::last_word(0)), 1);
    assert_eq!(one_pass::word(&state, one_pass::PRESENCE), 1);
    one_pass::set_half(&mut state, ROOT_CLOSED, 0);
    one_pass::open(&rule_b(), &mut state, 20);
    assert_eq!(one_pass::word(&state, one_pass::last_word(0)), 1);
    assert_eq!(one_pass::word(&state, one_pass::open_word(0)), 10);
}

#[test]
fn the_tally() {
    let after = |seen, selected, passed_over, verdict| {
        let mut tally = Tally { seen, selected, passed_over };
        (count(&mut tally, verdict).0, tally.seen, tally.selected, tally.passed_over)
    };
    assert_eq!(after(0, 0, 0, true), (0, 1, 1, 0));
    assert_eq!(after(3, 1, 2, false), (0, 4, 1, 3));
    assert_eq!(after(3, 1, 1, false), (12, 3, 1, 1));
    assert_eq!(after(u32::MAX, u32::MAX, 0, true), (12, u32::MAX, u32::MAX, 0));
    assert_eq!(after(1, u32::MAX, 2, true), (12, 1, u32::MAX, 2));
    assert_eq!(after(u32::MAX - 1, 0, u32::MAX - 1, true), (0, u32::MAX, 1, u32::MAX - 1));
}

#[test]
fn what_the_program_refuses() {
    let text = |parts: &[&[u8]]| program::text(&parts.concat()).0;
    assert_eq!(text(&[&[]]), "refused 1 at 0\n");
    assert_eq!(text(&[&[4]]), "refused 1 at 0\n");
    assert_eq!(text(&[&[5, 0], &ones(1)]), "refused 1 at 0\n");
    assert_eq!(text(&[&[4, 0], &ones(1)]), "refused 5 at 0\n");
    assert_eq!(text(&[&[0, 0], &r()]), "refused 1 at 0\n");
    assert_eq!(text(&[&[10, 0], &rule(&[&[1], &[3, 1]])]), "refused 3 at 4\n");
    assert_eq!(text(&[&[4, 0], &ones(1), &r()[..58]]), "refused 6 at 56\n");
    assert_eq!(text(&[&[4, 0], &ones(1), &r()[..56]]), "refused 7 at 56\n");
    assert_eq!(text(&[&[255, 255], &[0; 65_535]]), "refused 1 at 0\n");
    assert_eq!(text(&[&[4, 0], &ones(1), &[0; 70_000]]), "refused 5 at 0\n");
}
