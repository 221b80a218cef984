//! Compares the exported functions with the document's words, call by call, on inputs made from a seed.
//!
//! compare [--seed N] [--inputs N] [--from N] [--program FILE] [--keep FILE]
//!
//! First the document's samples and edges, then `inputs` made inputs, beginning with the one numbered `from`. With
//! `--program` the program is run on a share of inputs too. With `--keep` every call of an exported function is written
//! to a file, with what is expected of it (kept.rs). A difference is printed with the seed, the input's number and the
//! input. Then comes the table of how often each number was given by each of its causes; a cause that was never met is
//! a failure. The last line is 'N passed, M failed'; the exit status is 1 if anything failed.

mod calls;
mod edges;
mod exported;
mod inputs;
mod kept;
mod lent;
mod one_pass;
mod program;
mod random;
mod readers;
mod run;
mod tally;
mod text_edges;
mod texts;
mod typing;
mod whole;

use calls::Call;
use kept::Keeper;
use random::Random;
use run::Run;
use std::process::ExitCode;

/// How many inputs a short run makes.
const INPUTS: u64 = 100_000;
/// The program is run once for so many inputs.
const PROGRAM_SHARE: u64 = 50;

/// Makes one input and compares.
type Family = fn(&mut Run, &mut Random);

/// The inputs take these in turn: the more often a family is named, the larger its share.
const FAMILIES: &[Family] = &[
    readers::rule_input,
    readers::report_input,
    whole::input,
    whole::input,
    whole::print_input,
    one_pass::walk_input,
    one_pass::state_input,
    one_pass::state_input,
    tally::input,
    typing::input,
    typing::input,
];

/// The calls that are compared.
fn calls(with_program: bool) -> Vec<Call> {
    let mut calls = vec![Call::ReadRule, Call::ReadReport, Call::Evaluate, Call::Start, Call::Open, Call::Close];
    calls.extend([Call::Tally, Call::ReadPath, Call::Print]);
    if with_program {
        calls.push(Call::Program);
    }
    calls
}

/// The document's samples and edges.
fn fixed_inputs(run: &mut Run, random: &mut Random) {
    for rule in edges::rules().iter().chain(&edges::swept_rules()) {
        readers::compare_rule(run, random, rule);
    }
    for report in edges::reports().iter().chain(&edges::swept_reports()) {
        readers::compare_report(run, random, report);
    }
    fixed_whole_reports(run, random);
    fixed_walks(run, random);
    one_pass::orders(run, random);
    typing::fixed_inputs(run, random);
}

fn fixed_whole_reports(run: &mut Run, random: &mut Random) {
    whole::fixed_inputs(run, random);
    let sample = edges::sample_report();
    for rule in edges::rules() {
        whole::compare_with(run, random, &rule, &sample, 6);
        whole::compare_with(run, random, &rule, &sample, 5);
        whole::compare_print_with(run, random, &rule, &sample, whole::TEXT_ROOM);
    }
    for rule in edges::rules_by_number() {
        for report in edges::reports() {
            whole::compare_with(run, random, &rule, &report, 4_096);
            whole::compare_with(run, random, &rule, &report, 0);
            whole::compare_print_with(run, random, &rule, &report, whole::TEXT_ROOM);
            whole::compare_print_with(run, random, &rule, &report, 0);
        }
    }
}

fn fixed_walks(run: &mut Run, random: &mut Random) {
    use outside::records::{looks_ahead, read_report, read_rule};
    for rule in edges::rules() {
        let Ok(entries) = read_rule(&rule) else { continue };
        if entries.iter().any(|entry| looks_ahead(entry.kind)) {
            continue;
        }
        for report in edges::reports() {
            let Ok(tags) = read_report(&report) else { continue };
            if tags.len() < 1_000 || entries.len() == 3 {
                one_pass::walk(run, random, &rule, &tags, &[1, 10, 20]);
            }
        }
    }
}

#[derive(Debug)]
struct Options {
    seed: u64,
    inputs: u64,
    from: u64,
    program: Option<String>,
    keep: Option<String>,
}

fn options() -> Result<Options, String> {
    let mut options = Options { seed: 1, inputs: INPUTS, from: 0, program: None, keep: None };
    let mut words = std::env::args().skip(1);
    while let Some(word) = words.next() {
        let value = words.next().ok_or(format!("{word} needs a value"))?;
        let number = || value.parse::<u64>().map_err(|error| format!("{word} {value}: {error}"));
        match word.as_str() {
            "--seed" => options.seed = number()?,
            "--inputs" => options.inputs = number()?,
            "--from" => options.from = number()?,
            "--program" => options.program = Some(value),
            "--keep" => options.keep = Some(value),
            _ => return Err(format!("unknown word {word}")),
        }
    }
    Ok(options)
}

fn keeper(options: &Options) -> Result<Option<Keeper>, String> {
    let Some(name) = &options.keep else { return Ok(None) };
    Keeper::new(name).map(Some).map_err(|error| format!("--keep {name}: {error}"))
}

fn main() -> ExitCode {
    let begun = options().and_then(|options| Ok((keeper(&options)?, options)));
    let (keeper, Options { seed, inputs, from, program, .. }) = match begun {
        Ok(begun) => begun,
        Err(message) => {
            eprintln!("compare: {message}");
            return ExitCode::from(2);
        }
    };
    println!("seed {seed}, inputs {from} to {}", from + inputs);
    let mut run = Run::new(seed, keeper);
    fixed_inputs(&mut run, &mut Random::of(seed, u64::MAX));
    for input in program.iter().flat_map(|_| program::edge_inputs()) {
        program::compare(&mut run, program.as_deref().unwrap_or_default(), &input);
    }
    for input in from..from + inputs {
        run.input = Some(input);
        let mut random = Random::of(seed, input);
        let turn = (input % FAMILIES.len() as u64) as usize;
        FAMILIES[turn](&mut run, &mut random);
        if let Some(program) = program.as_deref().filter(|_| input % PROGRAM_SHARE == 0) {
            let input = program::any_input(&mut random);
            program::compare(&mut run, program, &input);
        }
    }
    if run.end(&calls(program.is_some())) {
        ExitCode::SUCCESS
    } else {
        ExitCode::FAILURE
    }
}
