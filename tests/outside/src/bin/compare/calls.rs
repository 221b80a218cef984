//! The calls that are compared, and the causes that a run must have met by each.

use outside::cause::Cause::{self, *};
use outside::typed::syntax::Form;

#[derive(Clone, Copy, PartialEq, Eq, PartialOrd, Ord, Debug)]
pub enum Call {
    ReadRule,
    ReadReport,
    Evaluate,
    Start,
    Open,
    Close,
    Tally,
    ReadPath,
    Print,
    Program,
}

const RULE_ACCEPTED: &[Cause] = &[Accepted, OneEntry, Entries64, RuleBytes510, RuleLabel1, RuleLabel999];
const RULE_REFUSED: &[Cause] = &[
    RuleEmpty,
    RuleLong,
    RuleStray,
    RuleKind,
    RuleLength,
    RulePastEnd,
    FirstIsOwn,
    FirstAboveOwn,
    SecondIsOwn,
    SecondAboveOwn,
    RuleLabelLow,
    RuleLabelHigh,
    RuleFull,
];
const REPORT_ACCEPTED: &[Cause] = &[OneElement, Elements4096, Levels64, ReportBytes40960, ReportLabel1, ReportLabel999];
const REPORT_REFUSED: &[Cause] = &[
    ReportEmpty,
    ReportLong,
    ReportStray,
    ReportKind,
    ReportLength,
    ReportPastEnd,
    ReportLabelLow,
    ReportLabelHigh,
    ClosingNothing,
    ClosingAfterRoot,
    OpeningAfterRoot,
    EndOpen,
    Level64,
    Element4097,
];
const STEP_REFUSED: &[Cause] = &[
    LooksAhead(6),
    LooksAhead(8),
    LooksAhead(10),
    LooksAhead(12),
    LooksAhead(14),
    StateLength,
    DepthOver64,
    DepthOverElements,
    ElementsOver4096,
    RootClosedOver1,
    RootClosedWhileOpen,
    Byte6NotZero,
    Byte7NotZero,
];
const OPENED: &[Cause] = &[
    Accepted,
    NoParentNoPrevious,
    ParentAlone,
    PreviousAlone,
    ParentAndPrevious,
    DepthNow64,
    ElementsNow4096,
    VerdictTrue,
    VerdictFalse,
];
const OPEN_REFUSED: &[Cause] =
    &[ReportLabelLow, ReportLabelHigh, LabelOver16Bits, OpeningAfterRoot, Level64, Element4097];

const TEXT_ACCEPTED: &[Cause] = &[
    Accepted,
    OneEntry,
    Entries64,
    TextLooksBack,
    TextLooksAhead,
    TextSelectsSome,
    TextBytes448,
    RuleBytes456,
    RuleRoomExact,
    RuleRoomMore,
];
const TEXT_REFUSED: &[Cause] =
    &[TextEmpty, TextLong, TextStray, TextEndsEarly, OneEntryOver, EntriesOver, RuleRoomShort];

/// That an entry of each of these kinds holds somewhere, and fails somewhere; only kind 1 never fails.
fn kinds(all: impl Iterator<Item = u16>) -> Vec<Cause> {
    all.flat_map(|kind| [Holds(kind), Fails(kind)]).filter(|cause| *cause != Fails(1)).collect()
}

impl Call {
    pub fn name(self) -> &'static str {
        match self {
            Call::ReadRule => "pz_read_rule",
            Call::ReadReport => "pz_read_report",
            Call::Evaluate => "pz_evaluate",
            Call::Start => "pz_start",
            Call::Open => "pz_open",
            Call::Close => "pz_close",
            Call::Tally => "pz_tally",
            Call::ReadPath => "pz_read_path",
            Call::Print => "pz_print",
            Call::Program => "program",
        }
    }

    /// The causes that a run must have met.
    pub fn due(self) -> Vec<Cause> {
        match self {
            Call::ReadRule => [RULE_ACCEPTED, RULE_REFUSED].concat(),
            Call::ReadReport => [&[Accepted], REPORT_ACCEPTED, REPORT_REFUSED].concat(),
            Call::Evaluate => {
                let kinds = kinds(1..=14);
                let accepted = [RULE_ACCEPTED, REPORT_ACCEPTED, &[RoomExact, RoomMore], &kinds].concat();
                [&accepted[..], RULE_REFUSED, REPORT_REFUSED, &[RoomShort]].concat()
            }
            Call::Start => vec![Accepted, StateLength],
            Call::Open => {
                let kinds = kinds([1, 2, 3, 4, 5, 7, 9, 11, 13].into_iter());
                [OPENED, &kinds, RULE_REFUSED, STEP_REFUSED, OPEN_REFUSED].concat()
            }
            Call::Close => {
                let own = [ClosingNothing, ClosingAfterRoot];
                [&[Accepted, ClosedInner, ClosedRoot], RULE_REFUSED, STEP_REFUSED, &own[..]].concat()
            }
            Call::Tally => {
                let accepted = [Accepted, VerdictTrue, VerdictFalse, TallyToTheTop];
                [&accepted[..], &[TallyFull, SumBelowSeen, SumAboveSeen, SumWraps]].concat()
            }
            Call::ReadPath => {
                let forms: Vec<Cause> = Form::all().into_iter().map(Has).collect();
                [TEXT_ACCEPTED, &forms, TEXT_REFUSED].concat()
            }
            Call::Print => {
                let rooms = [PrintoutLongest, PrintoutRoomExact, PrintoutRoomMore];
                let accepted = [&[Accepted], REPORT_ACCEPTED, &rooms].concat();
                [&accepted[..], RULE_REFUSED, REPORT_REFUSED, &[PrintoutRoomShort]].concat()
            }
            Call::Program => {
                let input = [InputEndsBeforeRule, InputEndsInsideRule];
                [&[Accepted], &input[..], RULE_REFUSED, REPORT_REFUSED].concat()
            }
        }
    }
}
