//! The numbers given back, and the causes of each: every clause of the document's table, one by one.

use crate::typed::syntax::Form;

/// One cause of a number. Several may hold of one record; they then share the number.
/// Those of number 0 are marks that an accepted input reaches.
#[derive(Clone, Copy, PartialEq, Eq, PartialOrd, Ord, Debug)]
pub enum Cause {
    Accepted,
    OneEntry,
    Entries64,
    RuleBytes510,
    RuleLabel1,
    RuleLabel999,
    OneElement,
    Elements4096,
    Levels64,
    ReportBytes40960,
    ReportLabel1,
    ReportLabel999,
    RoomExact,
    RoomMore,
    /// An entry of this kind holds somewhere.
    Holds(u16),
    /// An entry of this kind does not hold somewhere.
    Fails(u16),
    NoParentNoPrevious,
    ParentAlone,
    PreviousAlone,
    ParentAndPrevious,
    DepthNow64,
    ElementsNow4096,
    VerdictTrue,
    VerdictFalse,
    ClosedInner,
    ClosedRoot,
    TallyToTheTop,
    /// A text has this form of test or step in it.
    Has(Form),
    TextLooksBack,
    TextLooksAhead,
    TextSelectsSome,
    TextBytes448,
    RuleBytes456,
    RuleRoomExact,
    RuleRoomMore,
    PrintoutLongest,
    PrintoutRoomExact,
    PrintoutRoomMore,

    RuleEmpty,
    RuleLong,
    InputEndsBeforeRule,
    InputEndsInsideRule,

    RuleStray,
    RuleKind,
    RuleLength,
    RulePastEnd,

    FirstIsOwn,
    FirstAboveOwn,
    SecondIsOwn,
    SecondAboveOwn,
    RuleLabelLow,
    RuleLabelHigh,

    RuleFull,

    ReportEmpty,
    ReportLong,

    ReportStray,
    ReportKind,
    ReportLength,
    ReportPastEnd,
    ReportLabelLow,
    ReportLabelHigh,
    /// A label of a call that two bytes cannot hold.
    LabelOver16Bits,

    ClosingNothing,
    ClosingAfterRoot,
    OpeningAfterRoot,
    EndOpen,

    Level64,
    Element4097,

    RoomShort,
    RuleRoomShort,
    PrintoutRoomShort,

    /// An entry of this kind looks ahead.
    LooksAhead(u16),

    StateLength,
    DepthOver64,
    DepthOverElements,
    ElementsOver4096,
    RootClosedOver1,
    RootClosedWhileOpen,
    Byte6NotZero,
    Byte7NotZero,

    TallyFull,
    SumBelowSeen,
    SumAboveSeen,
    /// The sum is not `seen`, although its low 32 bits are.
    SumWraps,

    TextEmpty,
    TextLong,
    TextStray,
    TextEndsEarly,

    OneEntryOver,
    EntriesOver,
}

impl Cause {
    /// The number that the document gives for this cause.
    pub fn number(self) -> u32 {
        use Cause::*;
        match self {
            Accepted | OneEntry | Entries64 | RuleBytes510 | RuleLabel1 | RuleLabel999 => 0,
            OneElement | Elements4096 | Levels64 | ReportBytes40960 | ReportLabel1 | ReportLabel999 => 0,
            RoomExact | RoomMore | Holds(_) | Fails(_) => 0,
            NoParentNoPrevious | ParentAlone | PreviousAlone | ParentAndPrevious => 0,
            DepthNow64 | ElementsNow4096 | VerdictTrue | VerdictFalse | ClosedInner | ClosedRoot | TallyToTheTop => 0,
            Has(_) | TextLooksBack | TextLooksAhead | TextSelectsSome | TextBytes448 | RuleBytes456 => 0,
            RuleRoomExact | RuleRoomMore | PrintoutLongest | PrintoutRoomExact | PrintoutRoomMore => 0,
            RuleEmpty | RuleLong | InputEndsBeforeRule | InputEndsInsideRule => 1,
            RuleStray | RuleKind | RuleLength | RulePastEnd => 2,
            FirstIsOwn | FirstAboveOwn | SecondIsOwn | SecondAboveOwn | RuleLabelLow | RuleLabelHigh => 3,
            RuleFull => 4,
            ReportEmpty | ReportLong => 5,
            ReportStray | ReportKind | ReportLength | ReportPastEnd => 6,
            ReportLabelLow | ReportLabelHigh | LabelOver16Bits => 6,
            ClosingNothing | ClosingAfterRoot | OpeningAfterRoot | EndOpen => 7,
            Level64 | Element4097 => 8,
            RoomShort | RuleRoomShort | PrintoutRoomShort => 9,
            LooksAhead(_) => 10,
            StateLength | DepthOver64 | DepthOverElements | ElementsOver4096 => 11,
            RootClosedOver1 | RootClosedWhileOpen | Byte6NotZero | Byte7NotZero => 11,
            TallyFull | SumBelowSeen | SumAboveSeen | SumWraps => 12,
            TextEmpty | TextLong | TextStray | TextEndsEarly => 13,
            OneEntryOver | EntriesOver => 14,
        }
    }

    /// The cause in words, for the table of counts.
    pub fn words(self) -> String {
        use Cause::*;
        let fixed = match self {
            Holds(kind) => return format!("an entry of kind {kind} holds somewhere"),
            Fails(kind) => return format!("an entry of kind {kind} does not hold somewhere"),
            LooksAhead(kind) => return format!("an entry of kind {kind} looks ahead"),
            Has(form) => return form.words(),
            Accepted => "accepted",
            OneEntry => "one entry",
            Entries64 => "64 entries",
            RuleBytes510 => "rule of 510 bytes",
            RuleLabel1 => "label 1 in the rule",
            RuleLabel999 => "label 999 in the rule",
            OneElement => "one element",
            Elements4096 => "4,096 elements",
            Levels64 => "64 levels",
            ReportBytes40960 => "report of 40,960 bytes",
            ReportLabel1 => "label 1",
            ReportLabel999 => "label 999",
            RoomExact => "as many words as elements",
            RoomMore => "more words than elements",
            NoParentNoPrevious => "no parent, no previous sibling",
            ParentAlone => "a parent, no previous sibling",
            PreviousAlone => "no parent, a previous sibling",
            ParentAndPrevious => "a parent and a previous sibling",
            DepthNow64 => "depth becomes 64",
            ElementsNow4096 => "elements become 4,096",
            VerdictTrue => "verdict 1",
            VerdictFalse => "verdict 0",
            ClosedInner => "an inner element closed",
            ClosedRoot => "the root closed",
            TallyToTheTop => "seen becomes 4,294,967,295",
            TextLooksBack => "neither child nor right",
            TextLooksAhead => "child or right",
            TextSelectsSome => "some elements selected, and not all",
            TextBytes448 => "text of 448 bytes",
            RuleBytes456 => "rule of 456 bytes written",
            RuleRoomExact => "as many bytes as the rule",
            RuleRoomMore => "more bytes than the rule",
            PrintoutLongest => "text of 56,275 bytes",
            PrintoutRoomExact => "as many bytes as the text",
            PrintoutRoomMore => "more bytes than the text",
            RuleEmpty => "rule of 0 bytes",
            RuleLong => "rule over 512 bytes",
            InputEndsBeforeRule => "input under 2 bytes",
            InputEndsInsideRule => "rule length above what follows",
            RuleStray => "rule record, fewer than 4 bytes left",
            RuleKind => "rule record, unknown kind",
            RuleLength => "rule record, wrong length for its kind",
            RulePastEnd => "rule record, running past the end",
            FirstIsOwn => "first entry number is its own",
            FirstAboveOwn => "first entry number above its own",
            SecondIsOwn => "second entry number is its own",
            SecondAboveOwn => "second entry number above its own",
            RuleLabelLow => "label 0 in the rule",
            RuleLabelHigh => "label over 999 in the rule",
            RuleFull => "a 65th entry begins",
            ReportEmpty => "report of 0 bytes",
            ReportLong => "report over 40,960 bytes",
            ReportStray => "report record, fewer than 4 bytes left",
            ReportKind => "report record, unknown kind",
            ReportLength => "report record, wrong length for its kind",
            ReportPastEnd => "report record, running past the end",
            ReportLabelLow => "label 0",
            ReportLabelHigh => "label over 999",
            LabelOver16Bits => "label over 65,535",
            ClosingNothing => "closing before the root opened",
            ClosingAfterRoot => "closing after the root closed",
            OpeningAfterRoot => "opening after the root closed",
            EndOpen => "end with an element open",
            Level64 => "opening at level 64",
            Element4097 => "a 4,097th element",
            RoomShort => "fewer words than elements",
            RuleRoomShort => "fewer bytes than the rule",
            PrintoutRoomShort => "fewer bytes than the text",
            StateLength => "state of another length",
            DepthOver64 => "depth over 64",
            DepthOverElements => "depth over elements",
            ElementsOver4096 => "elements over 4,096",
            RootClosedOver1 => "root closed over 1",
            RootClosedWhileOpen => "root closed while depth is not 0",
            Byte6NotZero => "byte 6 not zero",
            Byte7NotZero => "byte 7 not zero",
            TallyFull => "seen is 4,294,967,295",
            SumBelowSeen => "the sum is below seen",
            SumAboveSeen => "the sum is above seen",
            SumWraps => "the sum is seen in its low 32 bits only",
            TextEmpty => "text of 0 bytes",
            TextLong => "text over 1,024 bytes",
            TextStray => "a byte at which no text can go on",
            TextEndsEarly => "a text that ends too soon",
            OneEntryOver => "65 entries",
            EntriesOver => "over 65 entries",
        };
        fixed.to_string()
    }
}

/// A refusal: its number, its place, and every cause of that number that holds there.
#[derive(Clone, PartialEq, Eq, Debug)]
pub struct Refusal {
    pub number: u32,
    pub place: u32,
    pub causes: Vec<Cause>,
}

/// Refuses at a place if there is a cause; the causes are of one number.
pub fn refuse_if(causes: Vec<Cause>, place: usize) -> Result<(), Refusal> {
    let Some(first) = causes.first() else { return Ok(()) };
    let number = first.number();
    assert!(causes.iter().all(|cause| cause.number() == number));
    Err(Refusal { number, place: place as u32, causes })
}

/// The causes whose test is met.
pub fn met<const N: usize>(tests: [(bool, Cause); N]) -> Vec<Cause> {
    tests.into_iter().filter(|(met, _)| *met).map(|(_, cause)| cause).collect()
}

/// What a call answers, as the exported functions lay it out: number, place, then what was found.
#[derive(Clone, Copy, PartialEq, Eq, Debug)]
#[repr(C)]
pub struct Reply {
    pub number: u32,
    pub place: u32,
    pub found: u32,
}

impl Reply {
    pub fn accepted(found: u32) -> Reply {
        Reply { number: 0, place: 0, found }
    }

    pub fn refused(refusal: &Refusal) -> Reply {
        Reply { number: refusal.number, place: refusal.place, found: 0 }
    }
}
