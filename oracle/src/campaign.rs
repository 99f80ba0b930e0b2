//! The campaign: calls beside the Rust, on other inputs in each round, for as long as the caller
//! gives.
use crate::calls::{Call, CALLS};
use crate::compare::{Comparison, Differing, Plan};
use crate::tally::{self, Tally};
use oracle::random::{set_salt, Random};
use std::fs::{self, File};
use std::io::{self, IsTerminal, Write};
use std::time::{Duration, Instant};

/// How long each kind of a call's cases has in a round.
const SLICE: Duration = Duration::from_millis(200);

/// What was compared of one call, over all rounds.
#[derive(Clone, Default)]
struct Total {
    cases: u64,
    values: u64,
    differ: u64,
    tally: Tally,
}

/// Compares these calls, round after round, and prints what came of each; whether nothing differs.
/// The first round is always whole.
pub fn run(calls: &[&'static Call], minutes: u64, seed: u64) -> io::Result<bool> {
    let began = Instant::now();
    let time = Duration::from_secs(minutes * 60);
    let mut totals = vec![Total::default(); calls.len()];
    let mut differences = Differences::of(seed);
    let mut rounds = 0;
    while rounds == 0 || began.elapsed() < time {
        for (call, total) in calls.iter().zip(&mut totals) {
            if rounds > 0 && began.elapsed() >= time {
                break;
            }
            show(call, rounds, began.elapsed(), minutes);
            one_round(call, seed, rounds, total, &mut differences)?;
        }
        rounds += 1;
    }
    clear();
    println!("seed {seed}, {minutes} minutes, {rounds} rounds begun");
    Ok(print_totals(calls, &totals, &differences))
}

fn one_round(
    call: &Call,
    seed: u64,
    round: u64,
    total: &mut Total,
    differences: &mut Differences,
) -> io::Result<()> {
    let start = salted(seed, round);
    let mut comparison = Comparison::of(call.name, Plan::Some { time: SLICE, start });
    (call.compare)(&mut comparison);
    total.cases += comparison.cases;
    total.values += comparison.values;
    total.differ += comparison.differ;
    total.tally.add(&tally::taken());
    for differing in &comparison.first {
        differences.keep(&format!(
            "{}\t{}\t{round}\t{}\t{}",
            call.name, differing.what, differing.number, differing.difference
        ))?;
    }
    Ok(())
}

/// Has every input of a round drawn by the seed and the round alone; and a number that is.
fn salted(seed: u64, round: u64) -> u64 {
    set_salt(0);
    let salt = Random::new(Random::new(seed).u64().wrapping_add(round)).u64();
    set_salt(salt);
    salt
}

fn print_totals(calls: &[&'static Call], totals: &[Total], differences: &Differences) -> bool {
    let mut all = Total::default();
    for (call, total) in calls.iter().zip(totals) {
        let Total {
            cases,
            values,
            differ,
            tally,
        } = total;
        println!(
            "{}: {cases} cases, {values} values compared, {differ} differ; {tally}",
            call.name
        );
        all.cases += cases;
        all.values += values;
        all.differ += differ;
        all.tally.add(tally);
    }
    let Total {
        cases,
        values,
        differ,
        tally,
    } = all;
    println!("in all: {cases} cases, {values} values compared, {differ} differ; {tally}");
    if differ > 0 {
        println!("`oracle again {}` compares them again", differences.name());
    }
    differ == 0
}

/// The file of the cases that differ, which is made with the first of them: the seed, and then a line
/// for each case with the call, what kind of case it is, the round, its number, and how it differs.
struct Differences {
    seed: u64,
    file: Option<File>,
}

impl Differences {
    fn of(seed: u64) -> Differences {
        Differences { seed, file: None }
    }

    fn name(&self) -> String {
        format!("differs-{}.txt", self.seed)
    }

    fn keep(&mut self, line: &str) -> io::Result<()> {
        let file = match &mut self.file {
            Some(file) => file,
            None => {
                let mut file = File::create(self.name())?;
                writeln!(file, "seed\t{}", self.seed)?;
                self.file.insert(file)
            }
        };
        writeln!(file, "{line}")
    }
}

/// Compares the cases of such a file again and prints what comes of each; whether none differs.
pub fn again(file: &str) -> io::Result<bool> {
    let text = fs::read_to_string(file)?;
    let mut lines = text.lines();
    let seed = lines
        .next()
        .and_then(|line| line.strip_prefix("seed\t"))
        .and_then(|seed| seed.parse().ok())
        .ok_or_else(|| malformed("its first line has no seed"))?;
    let mut agree = true;
    for line in lines {
        let (call, what, round, number) =
            case_of(line).ok_or_else(|| malformed(&format!("no case: {line}")))?;
        salted(seed, round);
        let one = Plan::One {
            what: what.into(),
            number,
        };
        let mut comparison = Comparison::of(call.name, one);
        (call.compare)(&mut comparison);
        if comparison.cases == 0 {
            return Err(malformed(&format!("no case: {line}")));
        }
        let name = call.name;
        match comparison.first.first() {
            None => println!("{name}: {what}, round {round}, number {number}: the same"),
            Some(Differing { difference, .. }) => {
                println!("{name}: {what}, round {round}, number {number}: {difference}");
                agree = false;
            }
        }
    }
    Ok(agree)
}

/// The call, the kind, the round and the number of a line.
fn case_of(line: &str) -> Option<(&'static Call, &str, u64, u64)> {
    let mut words = line.split('\t');
    let name = words.next()?;
    let call = CALLS.iter().find(|call| call.name == name)?;
    let what = words.next()?;
    let round = words.next()?.parse().ok()?;
    let number = words.next()?.parse().ok()?;
    Some((call, what, round, number))
}

fn malformed(why: &str) -> io::Error {
    io::Error::new(io::ErrorKind::InvalidData, why)
}

/// How far the campaign is, on standard error, where that is a terminal.
fn show(call: &Call, round: u64, elapsed: Duration, minutes: u64) {
    if io::stderr().is_terminal() {
        let done = elapsed.as_secs() / 60;
        eprint!(
            "\r\x1b[K{done} of {minutes} minutes, round {round}, {}",
            call.name
        );
    }
}

fn clear() {
    if io::stderr().is_terminal() {
        eprint!("\r\x1b[K");
    }
}
