//! The grammar of texts, and which tree a text is the text of.
//!
//! Spaces stand exactly where two words or numbers would run together, so the rules part tests by their ends: one that
//! begins and ends with a word or a number, one that begins with a word and ends with a sign, and one that begins and
//! ends with a sign. There is no fourth: what begins with `(` or `<` ends with its `)` or `>`.

use super::automaton::{self, Automaton, Symbol};
use super::syntax::{Axis, Path, Step, Test, AXES};
use std::sync::OnceLock;

#[derive(Clone, Copy, PartialEq, Eq, PartialOrd, Ord)]
enum Part {
    Text,
    Test,
    /// Begins and ends with a word or a number.
    Bare,
    /// Begins with a word and ends with a sign.
    Half,
    /// Begins and ends with a sign.
    Closed,
    /// A test and what stands between it and the `or` after it.
    BeforeOr,
    /// What stands between an `or` and the test after it, and the test.
    AfterOr,
    Path,
    Step,
    Axis,
}

/// What a rule is written with.
enum Piece {
    Spelt(&'static str),
    /// One byte of a range.
    Among(u8, u8),
    Of(Part),
}

/// A part, what it may be, and what is then made of the trees of its parts. The last is given the part's own bytes.
struct Rule(Part, &'static [Piece], fn(&mut Made, &[u8]));

/// The trees made so far that are not yet part of another one.
#[derive(Default)]
struct Made {
    tests: Vec<Test>,
    paths: Vec<Path>,
    steps: Vec<Step>,
    axes: Vec<Axis>,
}

const FIRST_DIGIT: Piece = Piece::Among(b'1', b'9');
const DIGIT: Piece = Piece::Among(b'0', b'9');

const RULES: &[Rule] = {
    use Part::*;
    use Piece::{Of, Spelt};
    &[
        Rule(Text, &[Of(Test)], as_it_is),
        Rule(Test, &[Of(Bare)], as_it_is),
        Rule(Test, &[Of(Half)], as_it_is),
        Rule(Test, &[Of(Closed)], as_it_is),
        Rule(Bare, &[Spelt("true")], truth),
        Rule(Bare, &[Spelt("label "), FIRST_DIGIT], label),
        Rule(Bare, &[Spelt("label "), FIRST_DIGIT, DIGIT], label),
        Rule(Bare, &[Spelt("label "), FIRST_DIGIT, DIGIT, DIGIT], label),
        Rule(Bare, &[Spelt("not "), Of(Bare)], not),
        Rule(Half, &[Spelt("not "), Of(Half)], not),
        Rule(Half, &[Spelt("not"), Of(Closed)], not),
        Rule(Closed, &[Spelt("("), Of(BeforeOr), Spelt("or"), Of(AfterOr), Spelt(")")], or),
        Rule(Closed, &[Spelt("<"), Of(Path), Spelt(">")], path_test),
        Rule(BeforeOr, &[Of(Bare), Spelt(" ")], as_it_is),
        Rule(BeforeOr, &[Of(Half)], as_it_is),
        Rule(BeforeOr, &[Of(Closed)], as_it_is),
        Rule(AfterOr, &[Spelt(" "), Of(Bare)], as_it_is),
        Rule(AfterOr, &[Spelt(" "), Of(Half)], as_it_is),
        Rule(AfterOr, &[Of(Closed)], as_it_is),
        Rule(Path, &[Of(Step)], first_step),
        Rule(Path, &[Of(Path), Spelt("/"), Of(Step)], further_step),
        Rule(Step, &[Of(Axis)], axis_step),
        Rule(Step, &[Of(Axis), Spelt("*")], star_step),
        Rule(Step, &[Spelt("?"), Of(Test)], test_step),
        Rule(Step, &[Spelt("("), Of(Axis), Spelt("?"), Of(Test), Spelt(")*")], conditional_step),
        Rule(Axis, &[Spelt("child")], axis),
        Rule(Axis, &[Spelt("parent")], axis),
        Rule(Axis, &[Spelt("right")], axis),
        Rule(Axis, &[Spelt("left")], axis),
    ]
};

impl Made {
    fn test(&mut self) -> Test {
        self.tests.pop().expect("the rule has a test")
    }

    fn step(&mut self) -> Step {
        self.steps.pop().expect("the rule has a step")
    }

    fn axis(&mut self) -> Axis {
        self.axes.pop().expect("the rule has an axis")
    }
}

fn as_it_is(_: &mut Made, _: &[u8]) {}

fn truth(made: &mut Made, _: &[u8]) {
    made.tests.push(Test::True);
}

fn label(made: &mut Made, own: &[u8]) {
    let digits = &own["label ".len()..];
    made.tests.push(Test::Label(digits.iter().fold(0, |number, digit| 10 * number + u16::from(digit - b'0'))));
}

fn not(made: &mut Made, _: &[u8]) {
    let test = made.test();
    made.tests.push(Test::negation(test));
}

fn or(made: &mut Made, _: &[u8]) {
    let right = made.test();
    let left = made.test();
    made.tests.push(Test::or(left, right));
}

fn path_test(made: &mut Made, _: &[u8]) {
    let path = made.paths.pop().expect("the rule has a path");
    made.tests.push(Test::Path(path));
}

fn first_step(made: &mut Made, _: &[u8]) {
    let step = made.step();
    made.paths.push(vec![step]);
}

fn further_step(made: &mut Made, _: &[u8]) {
    let step = made.step();
    made.paths.last_mut().expect("the rule has a path").push(step);
}

fn axis_step(made: &mut Made, _: &[u8]) {
    let axis = made.axis();
    made.steps.push(Step::Axis(axis));
}

fn star_step(made: &mut Made, _: &[u8]) {
    let axis = made.axis();
    made.steps.push(Step::Star(axis));
}

fn test_step(made: &mut Made, _: &[u8]) {
    let test = made.test();
    made.steps.push(Step::Test(test));
}

fn conditional_step(made: &mut Made, _: &[u8]) {
    let (axis, test) = (made.axis(), made.test());
    made.steps.push(Step::Conditional(axis, test));
}

fn axis(made: &mut Made, own: &[u8]) {
    let named = AXES.into_iter().find(|axis| axis.word().as_bytes() == own);
    made.axes.push(named.expect("the rules name the axes"));
}

fn automaton() -> &'static Automaton<Part> {
    static AUTOMATON: OnceLock<Automaton<Part>> = OnceLock::new();
    AUTOMATON.get_or_init(|| {
        let symbols = |piece: &Piece| match piece {
            Piece::Spelt(bytes) => bytes.bytes().map(|byte| Symbol::Byte(byte, byte)).collect(),
            Piece::Among(low, high) => vec![Symbol::Byte(*low, *high)],
            Piece::Of(part) => vec![Symbol::Part(*part)],
        };
        let rule = |Rule(part, pieces, _): &Rule| automaton::Rule {
            part: *part,
            symbols: pieces.iter().flat_map(symbols).collect(),
        };
        Automaton::of(RULES.iter().map(rule).collect())
    })
}

/// The tree of a text, or the length of the longest beginning of it with which some text of the grammar begins.
pub fn read(text: &[u8]) -> Result<Test, usize> {
    let mut made = Made::default();
    automaton().read(text, |rule, own| {
        let Rule(_, _, make) = RULES[rule];
        make(&mut made, &text[own]);
    })?;
    Ok(made.test())
}
