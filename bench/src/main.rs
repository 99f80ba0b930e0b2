//! Measures Jambharrow beside the Rust: a table on standard output, or a page with pictures.
mod activation_blocks;
mod binary16;
mod block_converters;
mod block_decoders;
mod block_quantizers;
mod calls;
mod decoded_first;
mod fixed_order_sums;
mod floors;
mod fused_dots;
mod given_scales;
mod goals;
mod growth;
mod iq4_nl;
mod linear_layers;
mod measure;
mod measured;
mod page;
mod q4_0_ggml;
mod q5_k;
mod ratios;
mod row_dots;
mod stepped_calls;
mod stepped_layer;
mod stepped_work;
mod svg;
mod table;

use calls::{Call, CALLS};
use measured::Measured;
use std::io::{self, IsTerminal};
use std::process::ExitCode;
use std::{env, fs};

const USAGE: &str = "\
bench table [CALL..]             measures the calls named, or all, and prints a table
bench measure FILE               measures all calls and keeps what was measured in FILE
bench page FILE NATIVE FOLDER PROCESSOR DAY COMPILER
                                 makes the page and its pictures in FOLDER, from what was measured
                                 beside the Rust, and beside the Rust for this very processor";

fn main() -> ExitCode {
    let words: Vec<String> = env::args().skip(1).collect();
    let words: Vec<&str> = words.iter().map(String::as_str).collect();
    let ended = match words[..] {
        ["table", ref names @ ..] => print_table(names),
        ["measure", file] => keep(file),
        ["page", file, native, folder, processor, day, compiler] => {
            make_page(file, native, folder, [processor, day, compiler])
        }
        _ => Err(USAGE.into()),
    };
    match ended {
        Ok(true) => ExitCode::SUCCESS,
        Ok(false) => ExitCode::FAILURE,
        Err(why) => {
            eprintln!("{why}");
            ExitCode::from(2)
        }
    }
}

/// Measures and prints as it goes; whether every bar is held.
fn print_table(names: &[&str]) -> Result<bool, String> {
    let calls = chosen(names)?;
    println!("{}", table::head());
    let mut held = true;
    for call in calls {
        for row in (call.rows)() {
            let measured = Measured::of(call.name, row);
            println!("{}", table::line(&measured));
            held &= measured.held() != Some(false);
        }
    }
    Ok(held)
}

/// The calls of the names given, all where none is.
fn chosen(names: &[&str]) -> Result<Vec<&'static Call>, String> {
    if names.is_empty() {
        return Ok(CALLS.iter().collect());
    }
    names
        .iter()
        .map(|name| {
            let found = CALLS.iter().find(|call| call.name == *name);
            found.ok_or(format!("no call has the name {name}"))
        })
        .collect()
}

fn keep(file: &str) -> Result<bool, String> {
    let mut lines = String::new();
    for (at, call) in CALLS.iter().enumerate() {
        if io::stderr().is_terminal() {
            eprint!("\r\x1b[K{} of {} calls, {}", at + 1, CALLS.len(), call.name);
        }
        for row in (call.rows)() {
            lines += &Measured::of(call.name, row).line();
            lines += "\n";
        }
    }
    if io::stderr().is_terminal() {
        eprint!("\r\x1b[K");
    }
    fs::write(file, lines).map_err(|error| format!("{file}: {error}"))?;
    Ok(true)
}

/// Makes the page and says how many bars are held; whether all are.
fn make_page(file: &str, native: &str, folder: &str, of: [&str; 3]) -> Result<bool, String> {
    let rows = page::pairs(read(file)?, read(native)?)?;
    let write = |name: &str, text: String| {
        let path = format!("{folder}/{name}");
        fs::write(&path, text).map_err(|error| format!("{path}: {error}"))
    };
    fs::create_dir_all(folder).map_err(|error| format!("{folder}: {error}"))?;
    write("ratios.svg", ratios::picture(&rows))?;
    write("growth.svg", growth::picture(&rows))?;
    write("README.md", page::text(&rows, of))?;
    let bars = page::Bars::of(&rows);
    println!("{bars}: {folder}/README.md");
    Ok(bars.held == bars.all)
}

fn read(file: &str) -> Result<Vec<Measured>, String> {
    let text = fs::read_to_string(file).map_err(|error| format!("{file}: {error}"))?;
    text.lines()
        .map(|line| Measured::of_line(line).ok_or(format!("{file}: not measured: {line}")))
        .collect()
}
