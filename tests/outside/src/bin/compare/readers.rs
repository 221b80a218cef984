//! The readers alone.

use crate::calls::Call;
use crate::exported;
use crate::inputs;
use crate::kept::Kept;
use crate::lent::Lent;
use crate::random::Random;
use crate::run::{hex, Run};
use outside::cause::Reply;
use outside::records::{report_reply, rule_reply};

pub fn rule_input(run: &mut Run, random: &mut Random) {
    let labels = inputs::labels(random);
    let rule = inputs::any_rule(random, &labels, false);
    compare_rule(run, random, &rule);
}

pub fn report_input(run: &mut Run, random: &mut Random) {
    let labels = inputs::labels(random);
    let size = inputs::element_count(random);
    let report = inputs::any_report(random, size, &labels);
    compare_report(run, random, &report);
}

pub fn compare_rule(run: &mut Run, random: &mut Random, rule: &[u8]) {
    let (due, causes) = rule_reply(rule);
    let lent = Lent::bytes(random, rule);
    let reply = exported::read_rule(&lent);
    run.same(Call::ReadRule, (due, true), (reply, lent.untouched()), || hex("rule", rule));
    run.keep(&reading(Call::ReadRule, due, rule, &[]));
    run.met(Call::ReadRule, &causes);
}

pub fn compare_report(run: &mut Run, random: &mut Random, report: &[u8]) {
    let (due, causes) = report_reply(report);
    let lent = Lent::bytes(random, report);
    let reply = exported::read_report(&lent);
    run.same(Call::ReadReport, (due, true), (reply, lent.untouched()), || hex("report", report));
    run.keep(&reading(Call::ReadReport, due, &[], report));
    run.met(Call::ReadReport, &causes);
}

/// A reader's call: nothing is lent to be written.
fn reading<'a>(call: Call, due: Reply, rule: &'a [u8], report: &'a [u8]) -> Kept<'a> {
    let answer = [due.number, due.place, due.found, 0];
    Kept { call, argument: 0, answer, rule, report, before: &[], after: &[] }
}
