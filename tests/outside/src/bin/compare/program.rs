//! The program, run on an input: what it writes.

use crate::calls::Call;
use crate::edges::{self, entry, label, TRUE};
use crate::inputs::{self, report_bytes};
use crate::random::Random;
use crate::run::{hex, Run};
use outside::program::text;
use outside::records::rule_bytes;
use outside::records::Tag::{Close, Open};
use std::io::Write;
use std::process::{Command, Stdio};

/// The fixed inputs: edges of the rule, edges of the report, and inputs that end early or go on too long.
pub fn edge_inputs() -> Vec<Vec<u8>> {
    let sample = edges::sample_report();
    let rule = edges::sample_rules().swap_remove(0);
    let mut inputs: Vec<Vec<u8>> = edges::rules().iter().map(|rule| input_bytes(rule, &sample)).collect();
    inputs.extend(edges::sample_rules().iter().map(|rule| input_bytes(rule, &sample)));
    inputs.extend(edges::reports().iter().map(|report| input_bytes(&rule, report)));
    inputs.extend([vec![], vec![0], vec![0, 0], vec![1, 0], vec![255, 255], vec![255; 65_536], vec![255; 65_537]]);
    inputs.push([vec![254, 255], vec![0; 65_534]].concat());
    inputs.push([vec![254, 255], vec![0; 65_535]].concat());
    inputs.push([vec![255, 255], vec![0; 65_534]].concat());
    inputs.push([vec![255, 255], vec![0; 65_535]].concat());
    // A rule length below what follows, the same, and above it, by its low byte and by its high byte.
    let one = rule_bytes(&[TRUE]);
    inputs.extend([[3, 0], [4, 0], [5, 0], [4, 1], [255, 255]].map(|length| [&length[..], &one].concat()));
    inputs.push(input_bytes(&one, &[4]));
    inputs.push(input_bytes(&[&one[..], &[0, 0]].concat(), &sample));
    // The rule's fault comes before the report's.
    inputs.push(input_bytes(&rule_bytes(&[entry(15, 0, 0)]), &[0; 40_961]));
    inputs.extend([65_530, 65_531, 70_000].map(|len| input_bytes(&one, &vec![0; len])));
    // The longest records: all selected, all but the root, and none.
    let broad = |leaf: u16| report_bytes(&[&[Open(1)], &[Open(leaf), Close].repeat(4_095)[..], &[Close]].concat());
    inputs.extend([TRUE, label(999), label(3)].map(|last| input_bytes(&rule_bytes(&[last]), &broad(999))));
    inputs
}

/// Any input.
pub fn any_input(random: &mut Random) -> Vec<u8> {
    let labels = inputs::labels(random);
    let size = inputs::element_count(random).min(200);
    let rule = if random.chance(1, 2) {
        inputs::valid_rule(random, &labels, false)
    } else {
        inputs::any_rule(random, &labels, false)
    };
    let report = inputs::any_report(random, size, &labels);
    let mut input = input_bytes(&rule, &report);
    if random.chance(1, 8) {
        inputs::damage(random, &mut input);
    }
    input
}

fn input_bytes(rule: &[u8], report: &[u8]) -> Vec<u8> {
    [&(rule.len() as u16).to_le_bytes(), rule, report].concat()
}

/// Runs the program on an input. It need not read all of it.
fn written(program: &str, input: &[u8]) -> std::io::Result<String> {
    let mut child = Command::new(program).stdin(Stdio::piped()).stdout(Stdio::piped()).spawn()?;
    let mut stdin = child.stdin.take().expect("standard input is piped");
    let input = input.to_vec();
    let writer = std::thread::spawn(move || stdin.write_all(&input));
    let output = child.wait_with_output()?;
    let _ = writer.join();
    Ok(String::from_utf8_lossy(&output.stdout).into_owned())
}

pub fn compare(run: &mut Run, program: &str, input: &[u8]) {
    let (due, causes) = text(input);
    let found = written(program, input).unwrap_or_else(|error| format!("it did not run: {error}"));
    run.same(Call::Program, due, found, || hex("input", input));
    // What an accepted report reaches is counted by the other calls.
    let causes = if causes[0].number() == 0 { &causes[..1] } else { &causes[..] };
    run.met(Call::Program, causes);
}
