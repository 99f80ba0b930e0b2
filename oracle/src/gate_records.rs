//! The record files that the programs of the gate are run on, and what they are to print.
use crate::formats::FORMATS;
use crate::record_cases;
use crate::record_files::{transcript, MOST_IN_FEAT, MOST_OUT_FEAT};
use crate::record_makers::{example, layer_of, readings, record, warm_up_readings, window};
use crate::sample::count;
use oracle::inputs::{reading, trained_scale};
use oracle::random::Random;
use std::fs;
use std::io;
use std::path::Path;

/// In the container of cases, how a file is answered: as it is, at each of its cuts, in pieces of at
/// most 1 to 7 bytes, a thousand times, one behind the other, and with its lines put behind it.
const AS_IT_IS: u8 = 0;
const AT_EACH_CUT: u8 = 1;
const IN_PIECES: u8 = 2;
const A_THOUSAND: u8 = 3;
const BEHIND_ITSELF: u8 = 4;

/// Writes all of them, and document 01's example beside the crates too.
pub fn write() -> io::Result<()> {
    let project = Path::new(env!("CARGO_MANIFEST_DIR")).join("..");
    let example = example();
    let examples = project.join("examples");
    fs::create_dir_all(&examples)?;
    fs::write(examples.join("example.records"), &example)?;
    println!("examples/example.records: {} bytes", example.len());
    for (name, file) in [("fillin", example), ("fillin_largest", largest())] {
        write_one(&project, name, &file, &transcript(&file).text)?;
    }
    let (container, text) = cases();
    write_one(&project, "fillin_cases", &container, &text)
}

fn write_one(project: &Path, name: &str, stdin: &[u8], stdout: &str) -> io::Result<()> {
    let folder = project.join("crates").join(name);
    fs::create_dir_all(&folder)?;
    fs::write(folder.join("stdin"), stdin)?;
    fs::write(folder.join("stdout"), stdout)?;
    let (bytes, lines) = (stdin.len(), stdout.lines().count());
    println!("crates/{name}: {bytes} bytes of stdin, {lines} lines of stdout");
    Ok(())
}

/// The windows of the small layer: so many that their numbers have three digits.
const SMALL_WINDOWS: usize = 180;

/// The largest layer in each format, with windows of ordinary readings and with a NaN and
/// infinities among them, and then many windows of a small layer.
fn largest() -> Vec<u8> {
    let mut random = Random::new(1);
    let mut file = Vec::new();
    for format in &FORMATS {
        file.extend(layer_of(
            &mut random,
            format.byte,
            MOST_IN_FEAT,
            MOST_OUT_FEAT,
            trained_scale,
        ));
        let mut ordinary =
            || -> Vec<f32> { (0..MOST_IN_FEAT).map(|_| reading(&mut random)).collect() };
        file.extend(window(&ordinary()));
        for strange in [f32::NAN, f32::INFINITY, f32::NEG_INFINITY] {
            let mut readings = ordinary();
            readings[MOST_IN_FEAT - 1] = strange;
            file.extend(window(&readings));
        }
    }
    file.extend(layer_of(&mut random, 4, 256, 1, trained_scale));
    for number in 0..SMALL_WINDOWS {
        let readings = match number % 7 {
            3 => warm_up_readings(&mut random, 256),
            _ => readings(&mut random, 256),
        };
        file.extend(window(&readings));
    }
    file
}

/// The container, and what is to be printed of it: for each answer a line with its number, from 1,
/// its transcript, and a line with the status of a program that ends so.
struct Container {
    bytes: Vec<u8>,
    text: String,
    answers: usize,
}

impl Container {
    /// A file that is to be answered so.
    fn hold(&mut self, way: u8, file: &[u8]) {
        self.bytes.push(way);
        self.bytes.extend(count(file.len()));
        self.bytes.extend(file);
    }

    /// The answer to a file: its transcript.
    fn answer(&mut self, file: &[u8]) -> String {
        let transcript = transcript(file).text;
        let status = match transcript.lines().last() {
            Some(line) if line.starts_with("end ") => 0,
            _ => 1,
        };
        self.say(&transcript, status);
        transcript
    }

    fn say(&mut self, transcript: &str, status: u32) {
        self.answers += 1;
        let number = self.answers;
        self.text += &format!("file {number}\n{transcript}status {status}\n");
    }
}

/// Every case; document 01's example at each of its cuts; files in pieces, which end with `end`, with
/// a record of unknown kind that others follow, and with a cut record; a thousand layers with a window each; and a file
/// whose lines are put behind it, so that its transcript, which is not printed, ends with `stop`. Behind the container's files come an input that cannot be read and an output that cannot be written.
fn cases() -> (Vec<u8>, String) {
    let mut container = Container {
        bytes: Vec::new(),
        text: String::new(),
        answers: 0,
    };
    for case in record_cases::all() {
        container.hold(AS_IT_IS, &case.file);
        let transcript = container.answer(&case.file);
        let last = transcript.lines().last();
        assert_eq!(last, Some(&case.last[..]), "{:02X?}", case.file);
    }
    let example = example();
    container.hold(AT_EACH_CUT, &example);
    for end in 0..=example.len() {
        container.answer(&example[..end]);
    }
    let unknown = [&example[..], &record(3, &[]), &example].concat();
    for file in [example.clone(), unknown, example[..2_000].to_vec()] {
        container.hold(IN_PIECES, &file);
        for _ in 1..=7 {
            container.answer(&file);
        }
    }
    container.hold(A_THOUSAND, &example);
    container.answer(&example.repeat(1_000));
    container.hold(BEHIND_ITSELF, &example);
    container.say("", 1);
    container.say("", 2);
    container.say("", 2);
    (container.bytes, container.text)
}
