//! Tests, paths, steps and axes as trees, and the text of a tree.

#[derive(Clone, Copy, PartialEq, Eq, PartialOrd, Ord, Debug)]
pub enum Axis {
    Child,
    Parent,
    Right,
    Left,
}

pub const AXES: [Axis; 4] = [Axis::Child, Axis::Parent, Axis::Right, Axis::Left];

impl Axis {
    pub fn word(self) -> &'static str {
        match self {
            Axis::Child => "child",
            Axis::Parent => "parent",
            Axis::Right => "right",
            Axis::Left => "left",
        }
    }
}

#[derive(Clone, PartialEq, Eq, Debug)]
pub enum Test {
    True,
    Label(u16),
    Not(Box<Test>),
    Or(Box<Test>, Box<Test>),
    Path(Path),
}

pub type Path = Vec<Step>;

#[derive(Clone, PartialEq, Eq, Debug)]
pub enum Step {
    /// `axis`
    Axis(Axis),
    /// `axis*`
    Star(Axis),
    /// `?test`
    Test(Test),
    /// `(axis?test)*`
    Conditional(Axis, Test),
}

impl Test {
    pub fn negation(test: Test) -> Test {
        Test::Not(Box::new(test))
    }

    pub fn or(left: Test, right: Test) -> Test {
        Test::Or(Box::new(left), Box::new(right))
    }

    /// The text: words, numbers and signs in order, with a space exactly where two of the first two meet.
    pub fn text(&self) -> String {
        let mut pieces = vec![];
        self.put(&mut pieces);
        let mut text = String::new();
        let mut after_word = false;
        for piece in pieces {
            let (word, spelt) = match piece {
                Piece::Word(spelt) => (true, spelt),
                Piece::Sign(spelt) => (false, spelt.to_string()),
            };
            if word && after_word {
                text.push(' ');
            }
            text += &spelt;
            after_word = word;
        }
        text
    }

    fn put(&self, pieces: &mut Vec<Piece>) {
        match self {
            Test::True => pieces.push(word("true")),
            Test::Label(label) => pieces.extend([word("label"), word(label)]),
            Test::Not(test) => {
                pieces.push(word("not"));
                test.put(pieces);
            }
            Test::Or(left, right) => {
                pieces.push(Piece::Sign("("));
                left.put(pieces);
                pieces.push(word("or"));
                right.put(pieces);
                pieces.push(Piece::Sign(")"));
            }
            Test::Path(steps) => {
                for (i, step) in steps.iter().enumerate() {
                    pieces.push(Piece::Sign(if i == 0 { "<" } else { "/" }));
                    step.put(pieces);
                }
                pieces.push(Piece::Sign(">"));
            }
        }
    }

    /// This test and every test inside it.
    fn tests(&self) -> Vec<&Test> {
        let mut found = vec![self];
        match self {
            Test::True | Test::Label(_) => {}
            Test::Not(test) => found.extend(test.tests()),
            Test::Or(left, right) => found.extend([left, right].into_iter().flat_map(|test| test.tests())),
            Test::Path(steps) => found.extend(steps.iter().filter_map(Step::test).flat_map(Test::tests)),
        }
        found
    }

    /// The forms of tests and steps that occur, each once.
    pub fn forms(&self) -> Vec<Form> {
        let mut forms: Vec<Form> = self.tests().into_iter().flat_map(Test::own_forms).collect();
        forms.sort();
        forms.dedup();
        forms
    }

    /// Whether `child` or `right` is named: of the four axes these lead to elements that have not been opened yet.
    pub fn looks_ahead(&self) -> bool {
        self.forms().into_iter().any(|form| matches!(form.axis(), Some(Axis::Child | Axis::Right)))
    }

    fn own_forms(&self) -> Vec<Form> {
        match self {
            Test::True => vec![Form::True],
            Test::Label(label) => vec![Form::Label { digits: label.to_string().len() }],
            Test::Not(_) => vec![Form::Not],
            Test::Or(..) => vec![Form::Or],
            Test::Path(steps) => {
                let within = steps.iter().filter_map(Step::test).flat_map(Test::tests);
                let nested = within.into_iter().any(|test| matches!(test, Test::Path(_)));
                let own = if nested { vec![Form::Path, Form::PathInPath] } else { vec![Form::Path] };
                own.into_iter().chain(steps.iter().map(Step::form)).collect()
            }
        }
    }
}

impl Step {
    /// The test that the step has, if it has one.
    fn test(&self) -> Option<&Test> {
        match self {
            Step::Axis(_) | Step::Star(_) => None,
            Step::Test(test) | Step::Conditional(_, test) => Some(test),
        }
    }

    fn form(&self) -> Form {
        match self {
            Step::Axis(axis) => Form::Axis(*axis),
            Step::Star(axis) => Form::Star(*axis),
            Step::Test(_) => Form::Test,
            Step::Conditional(axis, _) => Form::Conditional(*axis),
        }
    }

    fn put(&self, pieces: &mut Vec<Piece>) {
        match self {
            Step::Axis(axis) => pieces.push(word(axis.word())),
            Step::Star(axis) => pieces.extend([word(axis.word()), Piece::Sign("*")]),
            Step::Test(test) => {
                pieces.push(Piece::Sign("?"));
                test.put(pieces);
            }
            Step::Conditional(axis, test) => {
                pieces.extend([Piece::Sign("("), word(axis.word()), Piece::Sign("?")]);
                test.put(pieces);
                pieces.push(Piece::Sign(")*"));
            }
        }
    }
}

/// What a text is made of. Two words, and a word and a number, would run together; a sign stands by itself.
enum Piece {
    /// A word or a number.
    Word(String),
    Sign(&'static str),
}

fn word(spelt: impl ToString) -> Piece {
    Piece::Word(spelt.to_string())
}

/// A form of test or step.
#[derive(Clone, Copy, PartialEq, Eq, PartialOrd, Ord, Debug)]
pub enum Form {
    True,
    Label {
        digits: usize,
    },
    Not,
    Or,
    Path,
    /// A path with a path in a test of its steps.
    PathInPath,
    Axis(Axis),
    Star(Axis),
    Test,
    Conditional(Axis),
}

impl Form {
    /// Every form that there is.
    pub fn all() -> Vec<Form> {
        let mut all = vec![Form::True, Form::Not, Form::Or, Form::Path, Form::PathInPath, Form::Test];
        all.extend([1, 2, 3].map(|digits| Form::Label { digits }));
        all.extend(AXES.into_iter().flat_map(|axis| [Form::Axis(axis), Form::Star(axis), Form::Conditional(axis)]));
        all
    }

    fn axis(self) -> Option<Axis> {
        match self {
            Form::Axis(axis) | Form::Star(axis) | Form::Conditional(axis) => Some(axis),
            _ => None,
        }
    }

    /// The form in words, for the table of counts.
    pub fn words(self) -> String {
        match self {
            Form::True => "true".to_string(),
            Form::Label { digits } => format!("label with a number of {digits} digit(s)"),
            Form::Not => "not test".to_string(),
            Form::Or => "(test or test)".to_string(),
            Form::Path => "<path>".to_string(),
            Form::PathInPath => "a path inside a path".to_string(),
            Form::Axis(axis) => axis.word().to_string(),
            Form::Star(axis) => format!("{}*", axis.word()),
            Form::Test => "?test".to_string(),
            Form::Conditional(axis) => format!("({}?test)*", axis.word()),
        }
    }
}
