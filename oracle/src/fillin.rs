//! The program `fillin`, run on generated and damaged record files, and held to what is to be
//! printed of them.
use crate::compare::{search, Compared, Difference, Found, Progress};
use crate::record_damage::any_damaged_file;
use crate::record_files::{transcript, Transcript};
use oracle::random::Random;
use std::collections::BTreeMap;
use std::fs;
use std::io::{self, Read, Write};
use std::process::{Child, Command, ExitStatus, Stdio};
use std::sync::{mpsc, Mutex};
use std::thread;
use std::time::Duration;

/// How many bytes more than wanted are read of what the program prints.
const SURPLUS: usize = 4_096;

/// How long the program has for one file.
const LIMIT: Duration = Duration::from_secs(60);

/// What the files came to: how many ended by each kind of last line, and how many windows.
#[derive(Default)]
struct Tally {
    lasts: BTreeMap<Option<u32>, u64>,
    answered: u64,
    refused: u64,
}

/// Runs the program on so many files and prints what they came to and how many differ; whether none
/// does.
pub fn compare(program: &str, files: u64, seed: u64) -> io::Result<bool> {
    // A program that cannot be run is told of once, and not by every file.
    run(program, &[], 1, SURPLUS)?;
    let tally = Mutex::new(Tally::default());
    let case = |number| one_file(program, seed, number, &tally);
    let progress = Progress::of("fillin: files".into(), files);
    let Found { differ, first, .. } = search(files, &case, &progress);
    progress.clear();
    let tally = tally.into_inner().expect("no file makes a panic");
    for (last, count) in &tally.lasts {
        match last {
            None => println!("end: {count} files"),
            Some(number) => println!("stop {number}: {count} files"),
        }
    }
    let Tally {
        answered, refused, ..
    } = tally;
    println!("windows: {answered} answered, {refused} refused");
    for (_, difference) in &first {
        println!("    {difference}");
    }
    println!("{files} files, {differ} differ");
    Ok(differ == 0)
}

/// The file of a number, made of the seed and the number alone.
fn file_of(seed: u64, number: u64) -> (Vec<u8>, Random) {
    let start = Random::new(seed).u64().wrapping_add(number);
    let mut random = Random::new(start);
    (any_damaged_file(&mut random), random)
}

fn one_file(program: &str, seed: u64, number: u64, tally: &Mutex<Tally>) -> Compared {
    let (file, mut random) = file_of(seed, number);
    let wanted = transcript(&file);
    count(tally, &wanted);
    // Half of the files come in one piece, the others in pieces of a few bytes up to many.
    let most = 1 << (4 + random.below(12));
    let piece = match random.below(2) {
        0 => file.len().max(1),
        _ => 1 + random.below(most),
    };
    let wrong = match run(program, &file, piece, wanted.text.len() + SURPLUS) {
        Ok((printed, status)) => wrong(&wanted, &printed, status),
        Err(error) => Some(error.to_string()),
    };
    let Some(ours) = wrong else {
        return Ok(wanted.answered);
    };
    let name = format!("differs-{seed}-{number}.records");
    let kept = match fs::write(&name, &file) {
        Ok(()) => name,
        Err(error) => format!("{name} (not kept: {error})"),
    };
    Err(Difference {
        input: kept,
        wanted: format!("{:?}", wanted.text),
        ours,
    })
}

fn count(tally: &Mutex<Tally>, wanted: &Transcript) {
    let mut tally = tally.lock().expect("no file makes a panic");
    *tally.lasts.entry(wanted.stop).or_default() += 1;
    tally.answered += wanted.answered;
    tally.refused += wanted.refused;
}

/// What the program did otherwise than it is to, if anything.
fn wrong(wanted: &Transcript, printed: &[u8], status: ExitStatus) -> Option<String> {
    let printed_text = String::from_utf8_lossy(printed);
    if !status.success() {
        return Some(format!("{status} after {printed_text:?}"));
    }
    (printed != wanted.text.as_bytes()).then(|| format!("{printed_text:?}"))
}

/// Runs the program with a file on its standard input, given in pieces: what it printed, up to so
/// many bytes, and how it ended.
fn run(program: &str, file: &[u8], piece: usize, most: usize) -> io::Result<(Vec<u8>, ExitStatus)> {
    let mut child = Command::new(program)
        .stdin(Stdio::piped())
        .stdout(Stdio::piped())
        .stderr(Stdio::null())
        .spawn()
        .map_err(|error| io::Error::new(error.kind(), format!("{program}: {error}")))?;
    let printed = talk(&mut child, file, piece, most);
    let status = child.wait()?;
    Ok((printed?, status))
}

/// Writes the file and reads what is printed at the same time, so that neither waits for the other.
/// A program that stops may leave the rest of its input unread, and one that goes on for too long is
/// ended.
fn talk(child: &mut Child, file: &[u8], piece: usize, most: usize) -> io::Result<Vec<u8>> {
    let mut input = child.stdin.take().expect("the input is a pipe");
    let output = child.stdout.take().expect("the output is a pipe");
    let (done, ended) = mpsc::channel();
    thread::scope(|scope| {
        scope.spawn(move || {
            for piece in file.chunks(piece) {
                if input.write_all(piece).is_err() {
                    return;
                }
            }
        });
        scope.spawn(move || {
            let mut printed = Vec::new();
            let read = output.take(most as u64).read_to_end(&mut printed);
            // Where nobody waits any more, the program was ended.
            let _ = done.send(read.map(|_| printed));
        });
        ended.recv_timeout(LIMIT).unwrap_or_else(|_| {
            child.kill()?;
            Err(io::Error::new(
                io::ErrorKind::TimedOut,
                format!("not ended after {LIMIT:?}"),
            ))
        })
    })
}
