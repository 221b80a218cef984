//! Rules typed as paths: the stated cases, places and edges of request #101, on this implementation.

mod common;

use common::{r, rule};
use outside::cause::Reply;
use outside::records::{read_report, read_rule, rule_bytes};
use outside::tree::Tree;
use outside::typed::pairs::elements;
use outside::typed::syntax::{Step, Test, AXES};
use outside::typed::{grammar, read_path, translation};
use outside::{meaning, one_pass};

/// Reads a text into a buffer of `room` bytes, and sees that no byte but the rule's has changed.
fn read_into(text: &[u8], room: usize) -> (Reply, Vec<u8>) {
    let before: Vec<u8> = (0..room).map(|i| i as u8 ^ 0xa5).collect();
    let mut buffer = before.clone();
    let reply = read_path(text, &mut buffer).0;
    let written = reply.found as usize;
    assert_eq!(buffer[written..], before[written..]);
    (reply, buffer[..written].to_vec())
}

/// A text is taken, in a buffer of just its length and in a longer one, and one byte less is 9. Gives its rule.
fn taken(text: &str) -> Vec<u8> {
    let (reply, rule) = read_into(text.as_bytes(), 512);
    assert_eq!((reply.number, reply.place), (0, 0), "{text}");
    assert_eq!(read_into(text.as_bytes(), rule.len()), (reply, rule.clone()));
    for room in [rule.len() - 1, 0] {
        assert_eq!(read_into(text.as_bytes(), room).0, Reply { number: 9, place: 0, found: 0 });
    }
    rule
}

/// A text is refused, whatever the room.
fn refused(text: impl AsRef<[u8]>, number: u32, place: usize) {
    for room in [0, 1, 512] {
        let text = text.as_ref();
        let due = Reply { number, place: place as u32, found: 0 };
        assert_eq!(read_into(text, room).0, due, "{}", String::from_utf8_lossy(text));
    }
}

fn entry_count(text: &str) -> usize {
    read_rule(&taken(text)).unwrap().len()
}

// ---- the stated table

/// A row: the text, its records, and what is selected on report R: by the text's own meaning, by the meaning of the
/// entries, and by one pass exactly where the text looks back.
fn row(text: &str, records: &[&[u16]], selected: &[usize]) {
    assert_eq!(taken(text), rule(records), "{text}");
    let test = grammar::read(text.as_bytes()).unwrap();
    assert_eq!(test.text(), text);
    let tree = Tree::of(&read_report(&r()).unwrap());
    assert_eq!(elements(&test, &tree).into_iter().collect::<Vec<_>>(), selected, "{text}");

    let marks = meaning::marks(&read_rule(&rule(records)).unwrap(), &tree);
    let held = meaning::verdicts(&marks);
    assert_eq!((0..tree.size()).filter(|s| held[*s]).collect::<Vec<_>>(), selected, "{text}");
    let opened = one_pass::open(&rule(records), &mut [0; one_pass::STATE_BYTES], 1).0;
    assert_eq!(opened.number, if test.looks_ahead() { 10 } else { 0 }, "{text}");
}

#[test]
fn rows() {
    let t: &[u16] = &[1];
    row("<?label 20/right*/?label 30>", &[t, &[2, 30], &[5, 0, 1], t, &[12, 3, 2], &[2, 20], &[5, 4, 5]], &[2]);
    row("<?label 20/parent/left/?label 10>", &[t, &[2, 10], &[5, 0, 1], &[9, 2], &[7, 3], &[2, 20], &[5, 4, 5]], &[5]);
    row("<(parent?label 10)*/?label 1>", &[t, &[2, 1], &[5, 0, 1], &[2, 10], &[7, 3], &[11, 4, 2]], &[0]);
    let down: [&[u16]; 4] = [&[5, 2, 3], &[10, 3, 4], &[6, 5], &[4, 2, 6]];
    row("<(child?label 20)*/?label 30>", &[&[t, &[2, 30], &[5, 0, 1], &[2, 20]][..], &down].concat(), &[3]);
    row("<(child?label 10)*/?label 20>", &[&[t, &[2, 20], &[5, 0, 1], &[2, 10]][..], &down].concat(), &[2, 5]);
    row("<(right?label 30)*/?label 30>", &[t, &[2, 30], &[5, 0, 1], &[2, 30], &[8, 3], &[12, 4, 2]], &[2, 3]);
    row("<(left?label 20)*/?label 20>", &[t, &[2, 20], &[5, 0, 1], &[2, 20], &[9, 3], &[13, 4, 2]], &[2, 3, 5]);
    row("<child/left>", &[t, &[9, 0], &[6, 1]], &[0, 1]);
    row("<child*/?label 30>", &[t, &[2, 30], &[5, 0, 1], t, &[10, 3, 2]], &[0, 1, 3]);
    row("(label 10 or label 30)", &[&[2, 10], &[2, 30], &[4, 0, 1]], &[1, 3, 4]);
    row("not<left>", &[t, &[9, 0], &[3, 1]], &[0, 1, 2, 5]);
}

#[test]
fn spaces_stand_exactly_where_words_or_numbers_meet() {
    for text in ["(<child>or<left>)", "not(true or true)", "not label 5", "(not<left>or not true)", "<?not not<left>>"]
    {
        taken(text);
    }
}

// ---- refusals

#[test]
fn sizes() {
    refused("", 13, 0);
    refused("(".repeat(1_025), 13, 0);
    refused(format!("{}true", "not ".repeat(256)), 13, 0);
    refused(format!("{}true", "not ".repeat(255)), 14, 0);
}

#[test]
fn places() {
    let stated = [
        ("truex", 4),
        ("true ", 4),
        ("(true ", 6),
        ("label 0", 6),
        ("label 1000", 9),
        ("notlabel", 3),
        ("not  true", 4),
        ("not (true or true)", 4),
        ("<child", 6),
        ("<chil>", 5),
        ("<la", 2),
        ("<child/>", 7),
        ("<?true*>", 6),
        ("<(child?true)>", 13),
        ("<(true or true)>", 2),
        ("(child?true)*", 1),
        ("(true or true) ", 14),
        (" true", 0),
        ("label  5", 6),
        ("(true or(true or true) )", 22),
        ("(<left> or true)", 7),
        ("(true or <left>)", 9),
        ("(trueor true)", 5),
        ("(true ortrue)", 8),
        ("<left/ right>", 6),
        ("<? true>", 2),
        ("<(left? true)*>", 7),
        ("<left*/>", 7),
        ("<left**>", 6),
        ("true\n", 4),
        ("true\0", 4),
        ("TRUE", 0),
        ("not\ttrue", 3),
        ("true\r", 4),
    ];
    for (text, place) in stated {
        refused(text, 13, place);
    }
    refused(b"tru\xe5", 13, 3);
    refused(format!("{}tru", "not ".repeat(64)), 13, 259);
    for deep in ["(".repeat(1_024), "<?".repeat(512), "not ".repeat(256)] {
        refused(deep, 13, 1_024);
    }
}

#[test]
fn one_entry_more_is_14_with_no_room_too() {
    let nots = |count: usize| format!("{}true", "not ".repeat(count));
    assert_eq!((entry_count(&nots(63)), taken(&nots(63)).len()), (64, 382));
    refused(nots(64), 14, 0);

    let nested = |count: usize| format!("{}true{}", "<?".repeat(count), ">".repeat(count));
    assert_eq!(entry_count(&nested(31)), 63);
    assert_eq!(entry_count(&format!("not{}", nested(31))), 64);
    refused(nested(32), 14, 0);
    refused(format!("not not{}", nested(31)), 14, 0);

    let parents = |count: usize| format!("<{}>", vec!["parent"; count].join("/"));
    assert_eq!(entry_count(&parents(63)), 64);
    refused(parents(64), 14, 0);
    refused(format!("{}/", &parents(64)[..448]), 13, 449);
}

// ---- how large things can be

/// The most that a test of exactly so many entries can have of something; none is far below 0.
type Most = Vec<i64>;
const NONE: i64 = -1_000_000;

/// `table[entries - less]`, if there are so many.
fn less(table: &Most, entries: usize, less: usize) -> i64 {
    entries.checked_sub(less).and_then(|rest| table.get(rest)).copied().unwrap_or(NONE)
}

/// Every way to part so many entries among two, with what the two have together.
fn parted(entries: usize, first: &Most, second: &Most) -> Vec<i64> {
    (1..entries).map(|some| less(first, some, 0) + less(second, entries - some, 0)).collect()
}

/// The longest text for each number of entries, from the grammar: tests are told apart by whether they begin and end
/// with a word, for the spaces.
fn longest_texts() -> Most {
    let [mut bare, mut half, mut closed, mut test, mut step, mut path] = [(); 6].map(|_| vec![NONE]);
    for e in 1..=64 {
        let one = |only: usize, bytes: i64| if e == only { bytes } else { NONE };
        bare.push(one(1, "label 999".len() as i64).max(less(&bare, e, 1) + 4));
        half.push((less(&half, e, 1) + 4).max(less(&closed, e, 1) + 3));
        let spaced = |table: &Most| table.iter().map(|bytes| bytes + 1).collect::<Most>();
        let greater = |tables: [&Most; 3]| (0..e).map(|i| tables.map(|t| t[i]).into_iter().max().unwrap()).collect();
        let before: Most = greater([&spaced(&bare), &half, &closed]);
        let after: Most = greater([&spaced(&bare), &spaced(&half), &closed]);
        let or = parted(e - 1, &before, &after).into_iter().max().unwrap_or(NONE) + "(or)".len() as i64;
        closed.push(or.max(less(&path, e, 1) + "<>".len() as i64));
        test.push(bare[e].max(half[e]).max(closed[e]));
        let steps = [
            one(1, "parent".len() as i64),
            one(2, "parent*".len() as i64),
            less(&test, e, 1) + "?".len() as i64,
            less(&test, e, 2) + "(parent?)*".len() as i64,
            less(&test, e, 4) + "(child?)*".len() as i64,
        ];
        step.push(steps.into_iter().max().unwrap());
        path.push(parted(e, &step, &path).into_iter().map(|bytes| bytes + 1).chain([step[e]]).max().unwrap());
    }
    test
}

/// The largest rule for each number of entries, from the translation.
fn largest_rules() -> Most {
    let [mut test, mut step, mut path] = [(); 3].map(|_| vec![NONE]);
    let (none, one, two) = (4, 6, 8);
    for e in 1..=64 {
        let only = |count: usize, bytes: i64| if e == count { bytes } else { NONE };
        let or = parted(e - 1, &test, &test).into_iter().max().unwrap_or(NONE) + two;
        test.push(only(1, one).max(less(&test, e, 1) + one).max(or).max(less(&path, e, 1) + none));
        let steps = [
            only(1, one),
            only(2, none + two),
            less(&test, e, 1) + two,
            less(&test, e, 2) + one + two,
            less(&test, e, 4) + two + two + one + two,
        ];
        step.push(steps.into_iter().max().unwrap());
        path.push(parted(e, &step, &path).into_iter().chain([step[e]]).max().unwrap());
    }
    test
}

#[test]
fn the_longest_text_that_can_be_taken() {
    assert_eq!(longest_texts().into_iter().max(), Some(448));
    let label = || Test::Label(999);
    let text = (1..32).fold(Test::negation(label()), |test, _| Test::or(test, label())).text();
    assert_eq!((text.len(), entry_count(&text)), (448, 64));
}

#[test]
fn the_largest_rule_that_can_be_written() {
    assert_eq!(largest_rules().into_iter().max(), Some(456));
    let text = format!("not<{}?label 1>", "(child?label 1)*/".repeat(12));
    assert_eq!((taken(&text).len(), entry_count(&text)), (456, 64));
}

// ---- trees

/// Every test of exactly so many entries, with few labels, for each number of entries below `limit`.
fn small_tests(limit: usize) -> Vec<Vec<Test>> {
    let (mut tests, mut paths) = (vec![vec![]], vec![vec![]]);
    for e in 1..limit {
        let mut own = vec![];
        if e == 1 {
            own.extend([Test::True, Test::Label(7), Test::Label(70), Test::Label(999)]);
        } else {
            own.extend(tests[e - 1].iter().cloned().map(Test::negation));
            own.extend(paths[e - 1].iter().cloned().map(Test::Path));
        }
        for left in 1..e.saturating_sub(1) {
            for (a, b) in tests[left].iter().flat_map(|a| tests[e - 1 - left].iter().map(move |b| (a, b))) {
                own.push(Test::or(a.clone(), b.clone()));
            }
        }
        tests.push(own);
        let steps: Vec<Vec<Step>> = (0..=e).map(|entries| small_steps(&tests, entries)).collect();
        let mut own: Vec<Vec<Step>> = steps[e].iter().map(|step| vec![step.clone()]).collect();
        for first in 1..e {
            let rest: &Vec<Vec<Step>> = &paths[e - first];
            own.extend(
                steps[first]
                    .iter()
                    .flat_map(|step| rest.iter().map(|path| [std::slice::from_ref(step), path].concat())),
            );
        }
        paths.push(own);
    }
    tests
}

/// Every step of exactly so many entries over the tests.
fn small_steps(tests: &[Vec<Test>], entries: usize) -> Vec<Step> {
    let with = |own: usize| entries.checked_sub(own).map_or(&[][..], |rest| &tests[rest]);
    let mut steps: Vec<Step> = with(1).iter().cloned().map(Step::Test).collect();
    for axis in AXES {
        match entries {
            1 => steps.push(Step::Axis(axis)),
            2 => steps.push(Step::Star(axis)),
            _ => {}
        }
        let own = if axis.word() == "child" { 4 } else { 2 };
        steps.extend(with(own).iter().cloned().map(|test| Step::Conditional(axis, test)));
    }
    steps
}

#[test]
fn every_small_tree_has_a_text_of_its_own_that_is_read_back() {
    let mut texts = std::collections::BTreeSet::new();
    for (entries, tests) in small_tests(7).into_iter().enumerate() {
        for test in tests {
            let text = test.text();
            assert_eq!(grammar::read(text.as_bytes()).as_ref(), Ok(&test));
            assert_eq!(translation::entries(&test).len(), entries);
            assert!(texts.insert(text), "two trees have one text");
        }
    }
    assert_eq!(texts.len(), 12_560);
}

#[test]
fn every_small_tree_selects_by_its_entries_what_it_means_by_itself() {
    let tree = Tree::of(&read_report(&r()).unwrap());
    let relabelled = |test: &Test| test.text().replace("999", "30").replace("70", "20").replace("label 7", "label 10");
    for test in small_tests(7).iter().flatten() {
        let test = grammar::read(relabelled(test).as_bytes()).unwrap();
        let entries = translation::entries(&test);
        assert_eq!(read_rule(&rule_bytes(&entries)), Ok(entries.clone()));
        let marks = meaning::marks(&entries, &tree);
        let held: Vec<bool> = (0..tree.size()).map(|s| elements(&test, &tree).contains(&s)).collect();
        assert_eq!(meaning::verdicts(&marks), held, "{}", test.text());
    }
}

// ---- places

#[test]
fn every_beginning_of_a_text_can_go_on() {
    for text in small_tests(7).iter().flatten().map(Test::text) {
        for cut in 0..text.len() {
            let read = grammar::read(&text.as_bytes()[..cut]);
            assert!(read.is_ok() || read == Err(cut), "{text} cut at {cut}");
        }
    }
}

/// Goes on from the beginning of a text, byte by byte and by a short way, until it is a text.
fn gone_on(beginning: &[u8]) -> Vec<u8> {
    let mut text = beginning.to_vec();
    while let Err(place) = grammar::read(&text) {
        assert_eq!(place, text.len());
        let stands = |next: &u8| grammar::read(&[&text[..], &[*next]].concat()).err().is_none_or(|at| at > place);
        let ends_soon = b")>*1 t".iter().copied().chain(b'a'..=b'z').chain(*b"?");
        let next = ends_soon.into_iter().find(stands).expect("some byte can stand here");
        text.push(next);
    }
    text
}

#[test]
fn some_text_begins_with_what_stands_before_the_place() {
    let text = b"(not label 999 or<child/right*/(left?not<?true>)*/(parent?(<left>or label 10))*>)";
    for (at, other) in (0..text.len()).flat_map(|at| b"x (<)>/?*0notlabel".iter().map(move |other| (at, *other))) {
        let changed = [&text[..at], &[other], &text[at + 1..]].concat();
        if let Err(place) = grammar::read(&changed) {
            let whole = gone_on(&changed[..place]);
            let tree = grammar::read(&whole).unwrap();
            assert_eq!(tree.text().as_bytes(), whole);
        }
    }
}
