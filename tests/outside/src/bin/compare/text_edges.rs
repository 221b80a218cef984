//! The texts that every run has: those that request #101 is told by, edges, and sweeps beside a few texts.

use outside::typed::syntax::Test;

/// One text for each form of step and test.
const ROWS: [&str; 11] = [
    "<?label 20/right*/?label 30>",
    "<?label 20/parent/left/?label 10>",
    "<(parent?label 10)*/?label 1>",
    "<(child?label 20)*/?label 30>",
    "<(child?label 10)*/?label 20>",
    "<(right?label 30)*/?label 30>",
    "<(left?label 20)*/?label 20>",
    "<child/left>",
    "<child*/?label 30>",
    "(label 10 or label 30)",
    "not<left>",
];

/// Texts that have, together, every word and sign beside every other that may stand there.
const SWEPT: [&str; 4] = [
    "(not label 20 or<child/right*/(left?true)*/?label 999>)",
    "not<parent/(child?not<left*>)*>",
    "<(right?(true or not(<left>or label 1)))*>",
    "label 10",
];

const REFUSED: [&str; 33] = [
    "truex",
    "true ",
    "(true ",
    "label 0",
    "label 01",
    "label 1000",
    "label 9999",
    "label",
    "label ",
    "notlabel",
    "not  true",
    "not (true or true)",
    "(true or (true or true))",
    "((true or true) or true)",
    "(true  or true)",
    "(true or true )",
    "( true or true)",
    "<child",
    "<chil>",
    "<la",
    "<>",
    "<child/>",
    "</child>",
    "<child /left>",
    "<child//left>",
    "<? true>",
    "<?true*>",
    "<(child?true)>",
    "<(child)*>",
    "<(child*?true)*>",
    "<(true or true)>",
    "(child?true)*",
    "child",
];

fn nots(count: usize) -> String {
    format!("{}true", "not ".repeat(count))
}

fn nested(count: usize) -> String {
    format!("{}true{}", "<?".repeat(count), ">".repeat(count))
}

fn parents(count: usize) -> String {
    format!("<{}>", vec!["parent"; count].join("/"))
}

/// `count` ors, one in the left of the other.
fn ors(count: usize, innermost: Test) -> String {
    (0..count).fold(innermost, |test, _| Test::or(test, Test::Label(999))).text()
}

/// Conditional steps down, and a test at the end.
fn conditionals(count: usize) -> String {
    format!("<{}?label 1>", "(child?label 1)*/".repeat(count))
}

/// The rows, and texts at the limits of 64 entries, 448 bytes of text and 456 bytes of rule; one entry more of each.
fn whole_texts() -> Vec<String> {
    let mut texts = ROWS.map(str::to_string).to_vec();
    texts.extend(SWEPT.map(str::to_string));
    texts.extend(["true", "label 1", "label 999", "not true", "(true or true)", "<left>"].map(str::to_string));
    texts.extend([62, 63, 64, 255].map(nots));
    texts.extend([30, 31, 32, 340].map(nested));
    texts.push(format!("not{}", nested(31)));
    texts.push(format!("not not{}", nested(31)));
    texts.extend([62, 63, 64, 145].map(parents));
    texts.extend([30, 31, 32, 72].map(|count| ors(count, Test::Label(1))));
    texts.extend([30, 31, 32].map(|count| ors(count, Test::negation(Test::Label(999)))));
    texts.extend([12, 13].map(conditionals));
    texts.extend([12, 13].map(|count| format!("not{}", conditionals(count))));
    texts.push(format!("not not{}", conditionals(12)));
    texts
}

/// Texts with a fault at their end, however many entries they have before it.
fn faults_at_the_end() -> Vec<String> {
    let long = [nots(64), nots(254), nested(32), nested(339), parents(64), ors(40, Test::True), conditionals(14)];
    let cut = long.iter().map(|text| text[..text.len() - 1].to_string());
    let longer = long.iter().flat_map(|text| [" ", ">", "0", "*"].map(|more| format!("{text}{more}")));
    cut.chain(longer).collect()
}

/// Beginnings that go on for ever, near each limit of a text's size.
fn endless() -> Vec<Vec<u8>> {
    let units: [&[u8]; 11] =
        [b"(", b"<?", b"not ", b"<left/", b"(true or", b"<(child?", b"true", b" ", b"\0", b"9", b"\xff"];
    let sizes = [1, 2, 1_023, 1_024, 1_025, 1_026, 65_536];
    let of = |unit: &[u8], size: usize| unit.iter().copied().cycle().take(size).collect();
    units.iter().flat_map(|unit| sizes.map(|size| of(unit, size))).collect()
}

/// Texts at which the room is varied, too.
pub fn texts() -> Vec<Vec<u8>> {
    let mut texts = vec![vec![]];
    texts.extend(whole_texts().into_iter().chain(faults_at_the_end()).map(String::into_bytes));
    texts.extend(REFUSED.map(|text| text.as_bytes().to_vec()));
    texts.extend(endless());
    texts
}

/// Beside a few texts: every beginning and every end of them, a byte left out, doubled, exchanged with the next, a
/// space before each byte, and every value in the place of each byte.
pub fn swept() -> Vec<Vec<u8>> {
    let mut texts = vec![];
    for text in ROWS.iter().chain(&SWEPT).map(|text| text.as_bytes()) {
        for at in 0..text.len() {
            let (front, back) = text.split_at(at);
            let rest = &back[1..];
            texts.extend([front.to_vec(), back.to_vec()]);
            texts.push([front, rest].concat());
            texts.push([front, &back[..1], back].concat());
            texts.push([front, b" ", back].concat());
            texts.extend(rest.split_first().map(|(next, rest)| [front, &[*next, back[0]], rest].concat()));
        }
    }
    for text in SWEPT.iter().map(|text| text.as_bytes()) {
        for (at, value) in (0..text.len()).flat_map(|at| (0..=u8::MAX).map(move |value| (at, value))) {
            let mut other = text.to_vec();
            other[at] = value;
            texts.push(other);
        }
    }
    texts
}
