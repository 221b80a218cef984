//! The exported functions, as C sees them, each over lent buffers.

use crate::lent::Lent;
use outside::cause::Reply;

mod c {
    use super::Reply;

    extern "C" {
        pub fn pz_read_rule(rule: *const u8, rule_len: usize) -> Reply;
        pub fn pz_read_report(report: *const u8, report_len: usize) -> Reply;
        pub fn pz_evaluate(
            rule: *const u8,
            rule_len: usize,
            report: *const u8,
            report_len: usize,
            marks: *mut u64,
            words: usize,
        ) -> outside::whole::WholeReply;
        pub fn pz_start(state: *mut u8, state_len: usize) -> Reply;
        pub fn pz_open(rule: *const u8, rule_len: usize, state: *mut u8, state_len: usize, label: u32) -> Reply;
        pub fn pz_close(rule: *const u8, rule_len: usize, state: *mut u8, state_len: usize) -> Reply;
        pub fn pz_tally(tally: *mut outside::tally::Tally, verdict: u32) -> u32;
        pub fn pz_read_path(text: *const u8, text_len: usize, rule: *mut u8, rule_len: usize) -> Reply;
        pub fn pz_print(
            rule: *const u8,
            rule_len: usize,
            report: *const u8,
            report_len: usize,
            text: *mut u8,
            text_len: usize,
        ) -> Reply;
    }
}

// Each call is sound: a `Lent` is as long as it says, and no two overlap.

pub fn read_rule(rule: &Lent<u8>) -> Reply {
    unsafe { c::pz_read_rule(rule.pointer(), rule.len()) }
}

pub fn read_report(report: &Lent<u8>) -> Reply {
    unsafe { c::pz_read_report(report.pointer(), report.len()) }
}

pub fn evaluate(rule: &Lent<u8>, report: &Lent<u8>, marks: &mut Lent<u64>) -> outside::whole::WholeReply {
    let words = marks.len();
    unsafe { c::pz_evaluate(rule.pointer(), rule.len(), report.pointer(), report.len(), marks.pointer_mut(), words) }
}

pub fn start(state: &mut Lent<u8>) -> Reply {
    unsafe { c::pz_start(state.pointer_mut(), state.len()) }
}

pub fn open(rule: &Lent<u8>, state: &mut Lent<u8>, label: u32) -> Reply {
    unsafe { c::pz_open(rule.pointer(), rule.len(), state.pointer_mut(), state.len(), label) }
}

pub fn close(rule: &Lent<u8>, state: &mut Lent<u8>) -> Reply {
    unsafe { c::pz_close(rule.pointer(), rule.len(), state.pointer_mut(), state.len()) }
}

/// `tally` has three numbers: seen, selected, passed over.
pub fn tally(tally: &mut Lent<u32>, verdict: u32) -> u32 {
    assert_eq!(tally.len(), 3);
    unsafe { c::pz_tally(tally.pointer_mut().cast(), verdict) }
}

pub fn read_path(text: &Lent<u8>, rule: &mut Lent<u8>) -> Reply {
    unsafe { c::pz_read_path(text.pointer(), text.len(), rule.pointer_mut(), rule.len()) }
}

pub fn print(rule: &Lent<u8>, report: &Lent<u8>, text: &mut Lent<u8>) -> Reply {
    let bytes = text.len();
    unsafe { c::pz_print(rule.pointer(), rule.len(), report.pointer(), report.len(), text.pointer_mut(), bytes) }
}
