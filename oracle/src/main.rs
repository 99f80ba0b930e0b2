//! Holds Jambharrow to the Rust, call by call, and the program `fillin` to the Rust's row dots; stores
//! a sample of the Rust's answers and the record files of the gate. The Rust has no Q5_K, no IQ4_NL,
//! and no Q4_0 in GGML's order: there the other side is a reference by the published layout (`q5_k`,
//! `iq4_nl`, `q4_0_ggml`).
//! Nor does it say what a scale lost: that is judged by values (`narrowing`). Laws of document 02 hold
//! ours to itself (`laws`, `rearranged`).
mod activation_blocks;
mod binary16;
mod block_converters;
mod block_counts;
mod block_decoders;
mod block_quantizers;
mod calls;
mod campaign;
mod compare;
mod fillin;
mod fixed_order_sums;
mod forged_blocks;
mod formats;
mod fused_dots;
mod gate_records;
mod given_scales;
mod held;
mod iq4_nl;
mod laws;
mod layer_cases;
mod layers;
mod linear_layers;
mod month;
mod narrowing;
mod options;
mod packed_blocks;
mod q4_0_ggml;
mod q5_k;
mod rearranged;
mod record_cases;
mod record_damage;
mod record_files;
mod record_makers;
mod row_dots;
mod sample;
mod stepped_layer;
mod stepped_model;
mod tally;
mod wrong_answers;

use calls::{Call, CALLS};
use compare::{Comparison, Plan};
use options::Options;
use std::env;
use std::fmt::Display;
use std::process::ExitCode;

const USAGE: &str = "\
oracle compare [CALL..]   compares ours with the Rust, and with a reference where it has no such
                          call, on the calls named or on all; `canonical_dot_pub`, the dots and the
                          layers with themselves too, by document 02's laws; `stepped` names the
                          calls of the stepped layer; status 1 where an answer differs
oracle campaign [CALL..] [--minutes M] [--seed S]
                          compares the calls named, or all, on other inputs in each round, for so
                          many minutes (60, seed 1): counts to a call and to a refusal number; keeps
                          the cases that differ in a file; status 1 where there is one
oracle again FILE         compares the cases of such a file again
oracle sample             writes the stored sample that the program `replay` replays
oracle fillin PROGRAM [--files N] [--seed S]
                          runs the program on N generated record files, most of them damaged, and
                          compares what it prints (100000 files, seed 1); keeps the files on which
                          it differs in the working directory; status 1 where there is one
oracle records            writes the record files of the gate's programs, what they are to print,
                          and examples/example.records
oracle month FILE [--windows N] [--format F]
                          writes a month of windows of the largest layer as a record file (43200
                          windows, format 4)
oracle dots FILE          prints how long the row dots of a record file take alone, on both sides";

fn main() -> ExitCode {
    let words: Vec<String> = env::args().skip(1).collect();
    let words: Vec<&str> = words.iter().map(String::as_str).collect();
    match words[..] {
        ["compare", ref names @ ..] => match chosen(names) {
            Ok(calls) => compare_all(&calls),
            Err(why) => misused(&why),
        },
        ["campaign", ref options @ ..] => campaign(options),
        ["again", file] => ended("the cases", campaign::again(file)),
        ["sample"] => ended("the sample", sample::write().map(|()| true)),
        ["fillin", program, ref options @ ..] => fillin(program, options),
        ["records"] => ended("the records", gate_records::write().map(|()| true)),
        ["month", file, ref options @ ..] if !file.starts_with('-') => month(file, options),
        ["dots", file] => ended("the dots", month::time_dots(file).map(|()| true)),
        _ => misused(USAGE),
    }
}

/// Names of calls, and the options behind them.
fn campaign(words: &[&str]) -> ExitCode {
    let names = words.iter().take_while(|word| !word.starts_with("--"));
    let (names, options) = words.split_at(names.count());
    let (calls, mut options) = match (chosen(names), Options::of(options)) {
        (Ok(calls), Ok(options)) => (calls, options),
        (Err(why), _) | (_, Err(why)) => return misused(&why),
    };
    let (minutes, seed) = (options.take("--minutes", 60), options.take("--seed", 1));
    match options.rest() {
        Ok(()) => ended("the campaign", campaign::run(&calls, minutes, seed)),
        Err(why) => misused(&why),
    }
}

fn fillin(program: &str, options: &[&str]) -> ExitCode {
    let mut options = match Options::of(options) {
        Ok(options) => options,
        Err(why) => return misused(&why),
    };
    let (files, seed) = (options.take("--files", 100_000), options.take("--seed", 1));
    match options.rest() {
        Ok(()) => ended("fillin", fillin::compare(program, files, seed)),
        Err(why) => misused(&why),
    }
}

fn month(file: &str, options: &[&str]) -> ExitCode {
    let mut options = match Options::of(options) {
        Ok(options) => options,
        Err(why) => return misused(&why),
    };
    let windows = options.take("--windows", month::WINDOWS);
    let format = options.take("--format", 4);
    let Some(format) = u8::try_from(format).ok().and_then(formats::named) else {
        return misused("the formats are 4, 5 and 6");
    };
    match options.rest() {
        Ok(()) => ended(
            "the month",
            month::write(file, format.byte, windows).map(|()| true),
        ),
        Err(why) => misused(&why),
    }
}

/// How a command ended: as it is to, with a difference, or with an error, which is shown.
fn ended<E: Display>(what: &str, result: Result<bool, E>) -> ExitCode {
    match result {
        Ok(true) => ExitCode::SUCCESS,
        Ok(false) => ExitCode::FAILURE,
        Err(error) => {
            eprintln!("oracle: {what}: {error}");
            ExitCode::FAILURE
        }
    }
}

fn misused(why: &str) -> ExitCode {
    eprintln!("{why}");
    ExitCode::from(2)
}

/// The calls of the names given, all where none is; or the name that no call has.
fn chosen(names: &[&str]) -> Result<Vec<&'static Call>, String> {
    if names.is_empty() {
        return Ok(CALLS.iter().collect());
    }
    let named = |name| CALLS.iter().find(|call| call.name == name);
    names
        .iter()
        .map(|&name| named(name).ok_or_else(|| format!("no call has the name {name}")))
        .collect()
}

fn compare_all(calls: &[&Call]) -> ExitCode {
    let mut cases = 0;
    let mut values = 0;
    let mut differ = 0;
    for call in calls {
        let mut comparison = Comparison::of(call.name, Plan::All);
        (call.compare)(&mut comparison);
        cases += comparison.cases;
        values += comparison.values;
        differ += comparison.differ;
    }
    println!("in all: {cases} cases, {values} values compared, {differ} differ");
    println!("{} by the documents", tally::taken());
    if differ == 0 {
        ExitCode::SUCCESS
    } else {
        ExitCode::FAILURE
    }
}
