//! Record files, read from the text of document 01 alone, and what `fillin` is to print of one. The
//! windows are answered by the row dots of the Rust, and of the reference of Q5_K.
use crate::formats::{self, Format};

/// Document 01's numbers that say no to a record.
pub const NOT_A_MULTIPLE: u32 = 2;
pub const OUT_OF_RANGE: u32 = 6;
pub const MALFORMED: u32 = 11;
pub const UNKNOWN: u32 = 12;
pub const WARM_UP: u32 = 13;

/// How long kind and payload are together, at least and at most.
pub const LEAST_LENGTH: usize = 2;
pub const MOST_LENGTH: usize = 32_768;

/// The sizes of a layer record at most.
pub const MOST_IN_FEAT: usize = 2_048;
pub const MOST_OUT_FEAT: usize = 16;

/// The bytes of a layer's payload before its weights: format, in_feat and out_feat.
pub const LAYER_HEAD: usize = 9;

/// A layer, whose weights are a part of the file.
#[derive(Clone, Copy)]
pub struct Layer<'a> {
    pub format: &'static Format,
    pub in_feat: usize,
    pub out_feat: usize,
    pub weights: &'a [u8],
}

impl<'a> Layer<'a> {
    /// The layer of a payload, or why it is refused.
    fn of(payload: &'a [u8]) -> Result<Layer<'a>, u32> {
        let Some((head, weights)) = payload.split_first_chunk::<LAYER_HEAD>() else {
            return Err(MALFORMED);
        };
        let [format, i0, i1, i2, i3, o0, o1, o2, o3] = *head;
        let format = formats::named(format).ok_or(UNKNOWN)?;
        let layout = &format.layout;
        let in_feat = u32::from_le_bytes([i0, i1, i2, i3]) as usize;
        let out_feat = u32::from_le_bytes([o0, o1, o2, o3]) as usize;
        let within = (1..=MOST_IN_FEAT).contains(&in_feat);
        if !within || !(1..=MOST_OUT_FEAT).contains(&out_feat) {
            return Err(OUT_OF_RANGE);
        }
        if in_feat % layout.values != 0 {
            return Err(NOT_A_MULTIPLE);
        }
        if weights.len() != out_feat * (in_feat / layout.values) * layout.bytes {
            return Err(MALFORMED);
        }
        Ok(Layer {
            format,
            in_feat,
            out_feat,
            weights,
        })
    }

    /// The dot of each row of weights and the readings.
    fn answers(&self, readings: &[f32]) -> Vec<f32> {
        let dot = self.format.fused_row_dot;
        self.weights
            .chunks_exact(self.weights.len() / self.out_feat)
            .map(|row| dot(readings, row, self.in_feat).expect("the row has all its weights"))
            .collect()
    }
}

/// A record that is not refused, or a window that is refused by its readings alone.
pub enum Record<'a> {
    Layer(Layer<'a>),
    /// A window, with the layer that it is for.
    Window(Layer<'a>, Vec<f32>),
    /// A window that still has warm-up readings.
    WarmUp,
}

/// A file, and how far it was read. It gives record after record; what it refuses, other than a
/// window by its readings alone, it refuses again and again, and stays at that record's offset.
pub struct Reader<'a> {
    file: &'a [u8],
    pub offset: usize,
    layer: Option<Layer<'a>>,
}

impl<'a> Reader<'a> {
    pub fn of(file: &'a [u8]) -> Reader<'a> {
        Reader {
            file,
            offset: 0,
            layer: None,
        }
    }

    /// The record at the offset and how many bytes it has, or why it is refused.
    fn record(&self) -> Result<(Record<'a>, usize), u32> {
        let rest = &self.file[self.offset..];
        let (length, rest) = rest.split_first_chunk::<4>().ok_or(MALFORMED)?;
        let length = u32::from_le_bytes(*length) as usize;
        if !(LEAST_LENGTH..=MOST_LENGTH).contains(&length) || rest.len() < length {
            return Err(MALFORMED);
        }
        let (kind, payload) = rest[..length].split_at(2);
        let record = match kind {
            [1, 0] => Record::Layer(Layer::of(payload)?),
            [2, 0] => self.window(payload)?,
            _ => return Err(UNKNOWN),
        };
        Ok((record, 4 + length))
    }

    fn window(&self, payload: &[u8]) -> Result<Record<'a>, u32> {
        let layer = self.layer.ok_or(MALFORMED)?;
        if payload.len() != 4 * layer.in_feat {
            return Err(MALFORMED);
        }
        let bits = payload
            .chunks_exact(4)
            .map(|bytes| u32::from_le_bytes([bytes[0], bytes[1], bytes[2], bytes[3]]));
        if bits.clone().any(|bits| bits == 0) {
            return Ok(Record::WarmUp);
        }
        Ok(Record::Window(layer, bits.map(f32::from_bits).collect()))
    }
}

impl<'a> Iterator for Reader<'a> {
    type Item = Result<Record<'a>, u32>;

    fn next(&mut self) -> Option<Self::Item> {
        if self.offset == self.file.len() {
            return None;
        }
        Some(self.record().map(|(record, bytes)| {
            self.offset += bytes;
            if let Record::Layer(layer) = record {
                self.layer = Some(layer);
            }
            record
        }))
    }
}

/// What `fillin` is to print of a file, and what that comes to.
#[derive(Default)]
pub struct Transcript {
    pub text: String,
    /// Windows answered, and windows refused by their readings.
    pub answered: u64,
    pub refused: u64,
    /// The number that stopped it, where it was not read to its end.
    pub stop: Option<u32>,
}

/// Reads a file to its end, or to the record that stops it.
pub fn transcript(file: &[u8]) -> Transcript {
    let mut transcript = Transcript::default();
    let mut reader = Reader::of(file);
    while let Some(record) = reader.next() {
        match record {
            Ok(record) => transcript.add(record),
            Err(number) => {
                transcript.text += &format!("stop {number} {}\n", reader.offset);
                transcript.stop = Some(number);
                return transcript;
            }
        }
    }
    let Transcript {
        answered, refused, ..
    } = transcript;
    transcript.text += &format!("end {answered} {refused}\n");
    transcript
}

impl Transcript {
    /// The line of a record.
    fn add(&mut self, record: Record) {
        let number = self.answered + self.refused + 1;
        self.text += &match record {
            Record::Layer(Layer {
                format,
                in_feat,
                out_feat,
                ..
            }) => format!("layer {} {in_feat} {out_feat}\n", format.byte),
            Record::Window(layer, readings) => {
                self.answered += 1;
                let outputs = layer.answers(&readings).into_iter().map(shown);
                format!("window {number}{}\n", outputs.collect::<String>())
            }
            Record::WarmUp => {
                self.refused += 1;
                format!("window {number} refused {WARM_UP}\n")
            }
        };
    }
}

/// A space and the bits of an output; every NaN is shown as one.
fn shown(output: f32) -> String {
    let bits = match output.is_nan() {
        true => 0x7FC0_0000,
        false => output.to_bits(),
    };
    format!(" {bits:08X}")
}
