//! The exported functions by the implementation of this folder. `plant-slips` plants slips in a copy of that
//! implementation and sees that the comparison, linked with this library, reports each.

use outside::cause::Reply;
use outside::tally::Tally;
use outside::whole::WholeReply;
use outside::{one_pass, program, records, tally, typed, whole};
use std::slice;

// What each caller owes: every pointer is valid for its length, and no two buffers overlap. NULL with length 0 is an
// empty buffer, which the library's functions of these names do not take.

unsafe fn from_raw_parts<'a, T>(pointer: *const T, len: usize) -> &'a [T] {
    if len == 0 {
        &[]
    } else {
        slice::from_raw_parts(pointer, len)
    }
}

unsafe fn from_raw_parts_mut<'a, T>(pointer: *mut T, len: usize) -> &'a mut [T] {
    if len == 0 {
        &mut []
    } else {
        slice::from_raw_parts_mut(pointer, len)
    }
}

#[no_mangle]
pub unsafe extern "C" fn pz_read_rule(rule: *const u8, rule_len: usize) -> Reply {
    records::rule_reply(from_raw_parts(rule, rule_len)).0
}

#[no_mangle]
pub unsafe extern "C" fn pz_read_report(report: *const u8, report_len: usize) -> Reply {
    records::report_reply(from_raw_parts(report, report_len)).0
}

#[no_mangle]
pub unsafe extern "C" fn pz_evaluate(
    rule: *const u8,
    rule_len: usize,
    report: *const u8,
    report_len: usize,
    marks: *mut u64,
    words: usize,
) -> WholeReply {
    let [rule, report] = [from_raw_parts(rule, rule_len), from_raw_parts(report, report_len)];
    whole::evaluate(rule, report, from_raw_parts_mut(marks, words)).0
}

#[no_mangle]
pub unsafe extern "C" fn pz_start(state: *mut u8, state_len: usize) -> Reply {
    one_pass::start(from_raw_parts_mut(state, state_len)).0
}

#[no_mangle]
pub unsafe extern "C" fn pz_open(
    rule: *const u8,
    rule_len: usize,
    state: *mut u8,
    state_len: usize,
    label: u32,
) -> Reply {
    one_pass::open(from_raw_parts(rule, rule_len), from_raw_parts_mut(state, state_len), label).0
}

#[no_mangle]
pub unsafe extern "C" fn pz_close(rule: *const u8, rule_len: usize, state: *mut u8, state_len: usize) -> Reply {
    one_pass::close(from_raw_parts(rule, rule_len), from_raw_parts_mut(state, state_len)).0
}

#[no_mangle]
pub unsafe extern "C" fn pz_tally(tally: *mut Tally, verdict: u32) -> u32 {
    tally::count(&mut *tally, verdict != 0).0
}

#[no_mangle]
pub unsafe extern "C" fn pz_read_path(text: *const u8, text_len: usize, rule: *mut u8, rule_len: usize) -> Reply {
    typed::read_path(from_raw_parts(text, text_len), from_raw_parts_mut(rule, rule_len)).0
}

#[no_mangle]
pub unsafe extern "C" fn pz_print(
    rule: *const u8,
    rule_len: usize,
    report: *const u8,
    report_len: usize,
    text: *mut u8,
    text_len: usize,
) -> Reply {
    let [rule, report] = [from_raw_parts(rule, rule_len), from_raw_parts(report, report_len)];
    program::print(rule, report, from_raw_parts_mut(text, text_len)).0
}
