//! The crate beside include/jambharrow.h: the same version, numbers, words and sizes.
use jambharrow::{
    dequantize_iq4_nl, dequantize_q4_0, dequantize_q4_k, dequantize_q5_0, dequantize_q5_k,
    dequantize_q6_k, dequantize_q8_0, How, Layer, Refusal, MOST_BATCH, MOST_BYTES, MOST_FLOATS,
    MOST_IN, MOST_OUT,
};
use std::fmt::Debug;

/// A block decoder.
type Decoder = fn(&[u8], &mut [f32]) -> Result<(), Refusal>;

const HEADER: &str = include_str!("../../include/jambharrow.h");

/// The lines of the header that begin so, without that.
fn lines<'a>(begin: &'a str) -> impl Iterator<Item = &'static str> + 'a {
    HEADER
        .lines()
        .filter_map(move |line| line.trim().strip_prefix(begin))
}

/// The name that C has for a case of an enum, without what every name begins with: that of Rust in
/// capitals, with a line between its words.
fn c_name(case: impl Debug) -> String {
    let shown = format!("{case:?}");
    let name = shown.split('(').next().expect("a text has a first part");
    let mut words = String::new();
    for letter in name.chars() {
        if letter.is_uppercase() && !words.is_empty() {
            words.push('_');
        }
        words.push(letter.to_ascii_uppercase());
    }
    words
}

/// What the header says of each name of an enum, as `NAME = 1`.
fn numbers(name: &str) -> Vec<(String, u32)> {
    let of_enum = HEADER
        .split(&format!("enum {name} {{"))
        .nth(1)
        .and_then(|rest| rest.split('}').next())
        .expect("the header has the enum");
    let pair = |line: &str| {
        let line = line.trim().strip_prefix("JAMBHARROW_")?;
        let (name, number) = line.trim_end_matches(',').split_once(" = ")?;
        Some((name.to_string(), number.parse().expect("a whole number")))
    };
    of_enum.lines().filter_map(pair).collect()
}

/// What stands between the quotes of a line.
fn quoted(line: &str) -> String {
    let mut parts = line.split('"');
    parts.nth(1).expect("a line with words").to_string()
}

/// The words that the header has for each name, but for that of no refusal.
fn words() -> Vec<(String, String)> {
    let pair = |line: &str| {
        let (name, rest) = line.split_once(':').expect("a case");
        (name.to_string(), quoted(rest))
    };
    let all = lines("case JAMBHARROW_").map(pair);
    all.filter(|(name, _)| name != "DONE").collect()
}

#[test]
fn numbers_are_the_same() {
    let mut ours = vec![("DONE".into(), 0)];
    ours.extend(
        Refusal::ALL
            .iter()
            .map(|refusal| (c_name(refusal), refusal.number())),
    );
    assert_eq!(numbers("jambharrow_refusal"), ours);
}

#[test]
fn words_are_the_same() {
    let pair = |refusal: &Refusal| (c_name(refusal), refusal.words().to_string());
    let ours: Vec<_> = Refusal::ALL.iter().map(pair).collect();
    assert_eq!(words(), ours);
}

#[test]
fn what_is_no_refusal_has_words_of_its_own() {
    let own: Vec<String> = lines("case JAMBHARROW_DONE:")
        .chain(lines("default:"))
        .map(quoted)
        .collect();
    let [done, unknown] = own.as_slice() else {
        panic!("words for done and for an unknown number, and not {own:?}");
    };
    assert_ne!(done, unknown);
    assert_eq!(unknown, Refusal::Unlisted(99).words());
    for (name, words) in words() {
        assert!(!own.contains(&words), "{name}: {words}");
    }
}

#[test]
fn hows_are_the_same() {
    let ours = [How::Exact, How::Cut, How::Flushed, How::SentToInfinity];
    let ours = ours.map(|how| (c_name(how), how as u32));
    assert_eq!(numbers("jambharrow_how"), ours);
}

#[test]
fn formats_are_the_same() {
    let ours = [
        ("Q4_K", Layer::Q4_K),
        ("Q5_K", Layer::Q5_K),
        ("Q6_K", Layer::Q6_K),
    ];
    let ours = ours.map(|(name, byte)| (name.into(), byte.into()));
    assert_eq!(numbers("jambharrow_format"), ours);
}

/// What the header defines a name to be.
fn defined(name: &str) -> usize {
    let begin = format!("#define JAMBHARROW_{name} ");
    let mut found = lines(&begin);
    let number = found.next().expect("the header defines it");
    number.parse().expect("a whole number")
}

#[test]
fn the_version_is_the_same() {
    let of_crate = |number: &str| number.parse::<usize>().expect("a whole number");
    let major = of_crate(env!("CARGO_PKG_VERSION_MAJOR"));
    let minor = of_crate(env!("CARGO_PKG_VERSION_MINOR"));
    assert_eq!(defined("VERSION_MAJOR"), major);
    assert_eq!(defined("VERSION_MINOR"), minor);
    assert_eq!(jambharrow::version() as usize, 1_000 * major + minor);
}

#[test]
fn sizes_are_the_same() {
    assert_eq!(defined("MOST_IN"), MOST_IN);
    assert_eq!(defined("MOST_OUT"), MOST_OUT);
    assert_eq!(defined("MOST_BATCH"), MOST_BATCH);
    assert_eq!(defined("MOST_FLOATS"), MOST_FLOATS);
    assert_eq!(defined("MOST_BYTES"), MOST_BYTES);
    assert_eq!(defined("CHUNK"), Layer::CHUNK);
}

#[test]
fn blocks_are_as_long_as_the_header_says() {
    let decoders: [(&str, Decoder); 7] = [
        ("Q4_0", dequantize_q4_0),
        ("IQ4_NL", dequantize_iq4_nl),
        ("Q5_0", dequantize_q5_0),
        ("Q8_0", dequantize_q8_0),
        ("Q4_K", dequantize_q4_k),
        ("Q5_K", dequantize_q5_k),
        ("Q6_K", dequantize_q6_k),
    ];
    for (name, decoder) in decoders {
        let values = defined(&format!("{name}_BLOCK_VALUES"));
        let bytes = defined(&format!("{name}_BLOCK_BYTES"));
        let decode = |bytes, values| decoder(&vec![0; bytes], &mut vec![0.0; values]);
        assert_eq!(decode(bytes, values), Ok(()));
        assert_eq!(decode(bytes, values - 1), Err(Refusal::RoomShort));
        assert_eq!(decode(bytes - 1, values), Err(Refusal::NotWholeBlocks));
    }
    assert_eq!(HEADER.matches("_BLOCK_BYTES ").count(), decoders.len());
}

#[test]
fn layers_are_as_long_as_the_header_says() {
    for (name, format) in [("Q4_K", 4), ("Q5_K", 5), ("Q6_K", 6)] {
        let in_feat = defined(&format!("{name}_BLOCK_VALUES"));
        let layer = Layer {
            format,
            in_feat,
            out_feat: 1,
        };
        let bytes = defined(&format!("{name}_BLOCK_BYTES"));
        assert_eq!(layer.weight_bytes(), Ok(bytes));
    }
}
