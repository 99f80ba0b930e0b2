//! The stepped layer, by histories: calls of every kind, one after another on the same memory, each
//! held to document 01, and each closed row to its dot in one go: the Rust's, or that of the
//! reference of Q5_K.
use crate::calls::Call;
use crate::compare::{Compared, Comparison, Difference};
use crate::formats::{any_format, FORMATS};
use crate::held::{self, same, Place};
use crate::sample::{count, floats, Records};
use crate::stepped_model::{chunks, layout, needs, refusal, Input, Lengths, SteppedCall, Work};
use crate::tally;
use jambharrow::{Layer, Progress, Refusal, MOST_IN, MOST_OUT};
use oracle::inputs::{any_float, any_scale, row, trained_scale, Draw, SCALES};
use oracle::random::Random;

/// The Rust has no stepped layer: its calls are compared all the same.
pub const STEPPED: Call = Call {
    name: "stepped",
    compare,
    sample,
};

/// How many histories of each kind are played, and how many calls one has at most.
const HISTORIES: u64 = 1 << 17;
const CALLS: usize = 32;

/// How many histories of short rows are played in each format: they take little time.
const SHORT_HISTORIES: u64 = 1 << 20;

/// in_feat of a layer: none, blocks, a chunk, and blocks more; a few layers have the most instead.
const IN_FEATS: [usize; 6] = [0, 256, 512, 8_192, 8_448, 16_640];
/// out_feat of a layer at most.
const ROWS: usize = 8;

/// How the scales of the weights are drawn. Of the last kind any may be a NaN or an infinity.
const WEIGHT_SCALES: [Draw<u16>; 4] = [trained_scale, trained_scale, SCALES[2], any_scale];

fn compare(comparison: &mut Comparison) {
    comparison.cases("histories of one layer", HISTORIES, |number| {
        let random = &mut Random::new(number);
        let layer = any_layer(random);
        play(random, layer, false)
    });
    let what = "histories with calls of other layers and marks that others set";
    comparison.cases(what, HISTORIES, |number| {
        let random = &mut Random::new(number);
        let layer = any_layer(random);
        play(random, layer, true)
    });
    for format in &FORMATS {
        let what = format!("histories of short rows in {}", format.name);
        comparison.cases(&what, SHORT_HISTORIES, |number| {
            let random = &mut Random::new(number);
            let layer = layer_of_short_rows(random, format.byte);
            play(random, layer, false)
        });
    }
    let what = "each call with each set of reasons to refuse";
    comparison.cases(what, 4 << Reasons::COUNT, |number| {
        refuse(&mut Random::new(number), number)
    });
}

/// The layers whose histories are stored: format, in_feat and out_feat.
const STORED: [(u8, usize, usize); 7] = [
    (Layer::Q4_K, 8_448, 2),
    (Layer::Q6_K, 8_448, 2),
    (Layer::Q4_K, 256, 3),
    (Layer::Q6_K, 512, 4),
    (Layer::Q4_K, 0, 2),
    (Layer::Q5_K, 8_448, 2),
    (Layer::Q5_K, 512, 4),
];

/// A payload is the format, in_feat, out_feat, how many packed bytes and pieces there are, the
/// readings, the bytes, the row and the chunk of each piece in the order of the calls, and the dot
/// of each row, which is the other side's in one go. Every other piece is named, the last one first; runs
/// do the rest.
fn sample(records: &mut Records) {
    for (number, (format, in_feat, out_feat)) in (0..).zip(STORED) {
        let layer = Layer {
            format,
            in_feat,
            out_feat,
        };
        let mut random = Random::new(number);
        let x = row(&mut random, in_feat);
        let w = layout(format).blocks(&mut random, out_feat * in_feat / 256, trained_scale);
        let all = (0..out_feat).flat_map(|row| (0..chunks(layer)).map(move |chunk| [row, chunk]));
        let mut pieces: Vec<[usize; 2]> = all.collect();
        pieces.reverse();
        let named: Vec<u8> = pieces
            .iter()
            .step_by(2)
            .flatten()
            .flat_map(|&place| count(place))
            .collect();
        let mut input = Input::new(&w, &x);
        let dots: Vec<f32> = (0..out_feat)
            .map(|row| input.in_one_go(layer, row)[0])
            .collect();
        records.push(&[
            &count(format.into()),
            &count(in_feat),
            &count(out_feat),
            &count(w.len()),
            &count(named.len() / 8),
            &floats(&x),
            &w,
            &named,
            &floats(&dots),
        ]);
    }
}

/// A history of one layer. With `others`, some calls are of another layer, and at times a mark
/// changes between two calls.
fn play(random: &mut Random, layer: Layer, others: bool) -> Compared {
    History::of(random, layer, |random, history| {
        let mut values = 0;
        if random.below(8) > 0 {
            values += history.call(random, layer, SteppedCall::Open, Reasons(0))?;
        }
        for _ in 0..=random.below(CALLS) {
            let mut layer = layer;
            if others && random.below(4) == 0 {
                layer = other_layer(random, layer);
            }
            if others && random.below(16) == 0 {
                history.change_a_mark(random);
            }
            let reasons = match random.below(6) {
                0 => Reasons(random.u64() & random.u64()),
                _ => Reasons(0),
            };
            let call = any_call(random, layer);
            values += history.call(random, layer, call, reasons)?;
        }
        Ok(values)
    })
}

/// A call that has each reason of a set to refuse, so that the first of them is seen to win.
fn refuse(random: &mut Random, number: u64) -> Compared {
    let layer = Layer {
        format: any_format(random),
        in_feat: [256, 8_448][random.below(2)],
        out_feat: 1 + random.below(3),
    };
    let (row, chunk) = (random.below(layer.out_feat), random.below(chunks(layer)));
    let call = [
        SteppedCall::Open,
        SteppedCall::Piece { row, chunk },
        SteppedCall::Run { budget: 1 },
        SteppedCall::Close { row },
    ][number as usize % 4];
    let reasons = Reasons(number / 4);
    History::of(random, layer, |random, history| {
        let done = matches!(call, SteppedCall::Close { .. }) != reasons.by_marks();
        let mark = if done { 1 + random.below(255) as u8 } else { 0 };
        let marks = history.memory.marks.part_mut(needs(layer).marks);
        marks.fill(mark);
        history.call(random, layer, call, reasons)
    })
}

/// A layer of a history.
fn any_layer(random: &mut Random) -> Layer {
    let in_feat = match random.below(64) {
        0 => MOST_IN,
        _ => IN_FEATS[random.below(IN_FEATS.len())],
    };
    Layer {
        format: any_format(random),
        in_feat,
        out_feat: random.below(ROWS + 1),
    }
}

/// A layer of a few rows of one or two blocks; one in 64 has a row of two chunks instead.
fn layer_of_short_rows(random: &mut Random, format: u8) -> Layer {
    let in_feat = match random.below(64) {
        0 => 8_448,
        _ => 256 * (1 + random.below(2)),
    };
    Layer {
        format,
        in_feat,
        out_feat: 1 + random.below(3),
    }
}

/// Another layer, which the same memory may serve.
fn other_layer(random: &mut Random, layer: Layer) -> Layer {
    let in_feats = [layer.in_feat, layer.in_feat, 0, 256, 8_448];
    Layer {
        format: any_format(random),
        in_feat: in_feats[random.below(in_feats.len())],
        out_feat: random.below(layer.out_feat + 2),
    }
}

fn any_call(random: &mut Random, layer: Layer) -> SteppedCall {
    let row = random.below(layer.out_feat.max(1));
    let pieces = needs(layer).slots;
    match random.below(16) {
        0 => SteppedCall::Open,
        1..=6 => SteppedCall::Piece {
            row,
            chunk: random.below(chunks(layer).max(1)),
        },
        7..=10 => SteppedCall::Run {
            budget: [0, 1, 2, random.below(pieces + 2), usize::MAX][random.below(5)],
        },
        _ => SteppedCall::Close { row },
    }
}

/// A layer's weights, and in a quarter of the layers damage to some of them.
fn weights(random: &mut Random, layer: Layer, len: usize) -> Vec<u8> {
    let layout = layout(layer.format);
    let scale = WEIGHT_SCALES[random.below(WEIGHT_SCALES.len())];
    let mut w = layout.blocks(random, len.div_ceil(layout.bytes), scale);
    w.truncate(len);
    if random.below(4) == 0 {
        for _ in 0..=random.below(8) {
            w[random.below(len)] = random.u16() as u8;
        }
    }
    w
}

/// Marks as they may stand before an open: all 0, some of them, or none, which then are of any value.
fn any_marks(random: &mut Random, len: usize) -> Vec<u8> {
    let zeros = random.below(4);
    let mut mark = || match random.below(3) < zeros {
        true => 0,
        false => 1 + random.below(255) as u8,
    };
    (0..len).map(|_| mark()).collect()
}

/// Slots as they may stand before an open: floats of any kind.
fn any_slots(random: &mut Random, len: usize) -> Vec<f32> {
    (0..len).map(|_| any_float(random)).collect()
}

/// Lent memory: a part of a larger one, from place `at` on.
struct Lent<P> {
    at: usize,
    memory: Vec<P>,
}

impl<P: Place> Lent<P> {
    /// The part begins with what `make` makes; what it makes last stands before the part.
    fn new(
        random: &mut Random,
        need: usize,
        make: impl FnOnce(&mut Random, usize) -> Vec<P>,
    ) -> Lent<P> {
        let at = 1 + random.below(4);
        let len = at + need + 1 + random.below(4);
        let mut memory = make(random, len);
        memory.rotate_right(at);
        Lent { at, memory }
    }

    /// How much of it is lent to a call: what is needed, and at times more, but never the last place.
    fn length(&self, random: &mut Random, need: usize) -> usize {
        need + random.below(self.memory.len() - self.at - need)
    }

    fn part(&self, len: usize) -> &[P] {
        &self.memory[self.at..][..len]
    }

    fn part_mut(&mut self, len: usize) -> &mut [P] {
        &mut self.memory[self.at..][..len]
    }

    /// Holds the memory after a call to what is to stand in it: where the call writes what it
    /// writes, and at every other place the bits from before.
    fn held(&self, before: &[P], written: &[(usize, P)], what: impl Fn() -> String) -> Compared {
        let mut wanted = before.to_vec();
        for &(place, value) in written {
            let place = self.at + place;
            let ours = self.memory[place];
            wanted[place] = if ours.stands_for(value) { ours } else { value };
        }
        held::places(self.at, &[], &wanted, &self.memory, what)?;
        Ok(written.len() as u64)
    }
}

/// All that is lent to the calls of a history.
struct Memory {
    w: Lent<u8>,
    x: Lent<f32>,
    slots: Lent<f32>,
    marks: Lent<u8>,
    y: Lent<f32>,
}

impl Memory {
    fn new(random: &mut Random, layer: Layer) -> Memory {
        let needs = needs(layer);
        let weights = |random: &mut Random, len| weights(random, layer, len);
        Memory {
            w: Lent::new(random, needs.weights, weights),
            x: Lent::new(random, needs.readings, row),
            slots: Lent::new(random, needs.slots, any_slots),
            marks: Lent::new(random, needs.marks, any_marks),
            y: Lent::new(random, needs.outputs, |_, len| held::memory(len)),
        }
    }

    /// How much of each is lent to a call.
    fn lengths(&self, random: &mut Random, needs: Lengths) -> Lengths {
        Lengths {
            weights: self.w.length(random, needs.weights),
            readings: self.x.length(random, needs.readings),
            slots: self.slots.length(random, needs.slots),
            marks: self.marks.length(random, needs.marks),
            outputs: self.y.length(random, needs.outputs),
        }
    }

    /// What ours answers.
    fn ours(
        &mut self,
        layer: Layer,
        call: SteppedCall,
        lent: Lengths,
    ) -> Result<Option<Progress>, Refusal> {
        let w = self.w.part(lent.weights);
        let x = self.x.part(lent.readings);
        let slots = self.slots.part_mut(lent.slots);
        let marks = self.marks.part_mut(lent.marks);
        let y = self.y.part_mut(lent.outputs);
        let said = match call {
            SteppedCall::Open => layer.open(slots, marks),
            SteppedCall::Piece { row, chunk } => layer.piece(w, x, row, chunk, slots, marks),
            SteppedCall::Run { budget } => return layer.run(w, x, budget, slots, marks).map(Some),
            SteppedCall::Close { row } => layer.close(row, slots, marks, y),
        };
        said.map(|()| None)
    }
}

/// Reasons to refuse a call, a bit for each. A reason that the call or the layer has no use for, as
/// a row outside is to an open, changes nothing.
#[derive(Debug, Clone, Copy)]
struct Reasons(u64);

impl Reasons {
    const COUNT: u32 = 12;

    fn has(self, reason: u32) -> bool {
        self.0 >> reason & 1 == 1
    }

    /// A piece that is done, or open in a row that is closed.
    fn by_marks(self) -> bool {
        self.has(11)
    }

    /// An unknown format, or a size out of range.
    fn layer(self, random: &mut Random, mut layer: Layer) -> Layer {
        if self.has(0) {
            layer.format = [0, 1, 2, 3, 7, 8, 132, 255][random.below(8)];
        }
        if self.has(1) {
            layer.in_feat += 1 + random.below(255);
        }
        if self.has(2) {
            layer.in_feat = [MOST_IN + 1, MOST_IN + 256, usize::MAX][random.below(3)];
        }
        if self.has(3) {
            layer.out_feat = [MOST_OUT + 1, MOST_OUT + 256, usize::MAX][random.below(3)];
        }
        layer
    }

    /// Memory that is too short.
    fn lengths(self, random: &mut Random, lengths: Lengths, needs: Lengths) -> Lengths {
        let mut short = |reason, length, need| match self.has(reason) && need > 0 {
            true => [0, need - 1, random.below(need)][random.below(3)],
            false => length,
        };
        Lengths {
            weights: short(4, lengths.weights, needs.weights),
            readings: short(5, lengths.readings, needs.readings),
            slots: short(6, lengths.slots, needs.slots),
            marks: short(7, lengths.marks, needs.marks),
            outputs: short(8, lengths.outputs, needs.outputs),
        }
    }

    /// A row or a chunk outside the layer.
    fn call(self, random: &mut Random, layer: Layer, call: SteppedCall) -> SteppedCall {
        let mut outside = |reason, inside, count| match self.has(reason) {
            true => [count, count + 1, usize::MAX][random.below(3)],
            false => inside,
        };
        match call {
            SteppedCall::Piece { row, chunk } => SteppedCall::Piece {
                row: outside(9, row, layer.out_feat),
                chunk: outside(10, chunk, chunks(layer)),
            },
            SteppedCall::Close { row } => SteppedCall::Close {
                row: outside(9, row, layer.out_feat),
            },
            call => call,
        }
    }
}

/// A layer, and what its calls have come to.
struct History<'a> {
    layer: Layer,
    memory: Memory,
    input: Input<'a>,
    /// How many calls were made.
    calls: usize,
    /// How many pieces were accepted since the layer was opened, where nothing but its own calls
    /// has come since.
    accepted: Option<usize>,
}

impl History<'_> {
    /// Plays a history of a layer, and holds its weights and readings to what they were.
    fn of(
        random: &mut Random,
        layer: Layer,
        play: impl FnOnce(&mut Random, &mut History) -> Compared,
    ) -> Compared {
        let memory = Memory::new(random, layer);
        let (w, x) = (memory.w.memory.clone(), memory.x.memory.clone());
        let mut history = History {
            layer,
            input: Input::new(&w[memory.w.at..], &x[memory.x.at..]),
            memory,
            calls: 0,
            accepted: None,
        };
        let values = play(random, &mut history)?;
        let kept = |part: &str| format!("{part} of {layer:?}");
        history.memory.w.held(&w, &[], || kept("weights"))?;
        history.memory.x.held(&x, &[], || kept("readings"))?;
        Ok(values)
    }

    /// A mark changes between two calls.
    fn change_a_mark(&mut self, random: &mut Random) {
        let need = needs(self.layer).marks;
        let mark = [0, random.u16() as u8][random.below(2)];
        if need > 0 {
            self.memory.marks.part_mut(need)[random.below(need)] = mark;
            self.accepted = None;
        }
    }

    /// Makes a call and holds its answer, and all memory then, to document 01.
    fn call(
        &mut self,
        random: &mut Random,
        layer: Layer,
        call: SteppedCall,
        reasons: Reasons,
    ) -> Compared {
        let needs = needs(self.layer);
        let lent = self.memory.lengths(random, needs);
        let lent = reasons.lengths(random, lent, needs);
        let call = reasons.call(random, layer, call);
        let layer = reasons.layer(random, layer);
        self.calls += 1;
        let number = self.calls;
        let input = |part| format!("{part}call {number}, {call:?} of {layer:?}, lent {lent:?}");
        let Memory {
            slots, marks, y, ..
        } = &self.memory;
        let before = (slots.memory.clone(), marks.memory.clone(), y.memory.clone());
        let (slots, marks) = (slots.part(lent.slots), marks.part(lent.marks));
        let refusal = refusal(layer, call, lent, marks);
        tally::count(refusal);
        let work = match refusal {
            None => self.input.work(layer, call, slots, marks),
            Some(_) => Work::default(),
        };
        let wanted = refusal.map_or(Ok(work.progress), Err);
        let ours = self.memory.ours(layer, call, lent);
        agree(wanted, ours, answer, || input(""))?;
        let Memory {
            slots, marks, y, ..
        } = &self.memory;
        let mut values = 1;
        values += slots.held(&before.0, &work.slots, || input("slots after "))?;
        values += marks.held(&before.1, &work.marks, || input("marks after "))?;
        values += y.held(&before.2, &work.outputs, || input("outputs after "))?;
        if refusal.is_none() {
            values += self.after(layer, call, &work, || input("after "))?;
        }
        Ok(values)
    }

    /// Demand 3, after a call that was not refused: pieces accepted plus pieces open is the piece
    /// count, and a closed row has the bits of its dot in one go.
    fn after(
        &mut self,
        layer: Layer,
        call: SteppedCall,
        work: &Work,
        input: impl Fn() -> String,
    ) -> Compared {
        self.accepted = match (call, self.accepted) {
            _ if layer != self.layer => None,
            (SteppedCall::Open, _) => Some(0),
            (_, accepted) => accepted.map(|accepted| accepted + work.marks.len()),
        };
        let Some(accepted) = self.accepted else {
            return Ok(0);
        };
        let pieces = needs(layer).marks;
        let marks = self.memory.marks.part(pieces);
        let open = marks.iter().filter(|&&mark| mark == 0).count();
        let what = || input() + ", accepted plus open";
        agree(pieces, accepted + open, |count| count.to_string(), what)?;
        let SteppedCall::Close { row } = call else {
            return Ok(1);
        };
        let ours = self.memory.y.part(layer.out_feat)[row];
        for dot in self.input.in_one_go(layer, row) {
            let wanted = if same(dot, ours) { ours } else { dot };
            let what = || input() + ", in one go";
            let bits = |bits| format!("{bits:08X}");
            agree(wanted.to_bits(), ours.to_bits(), bits, what)?;
        }
        Ok(3)
    }
}

/// What a call answers, in words.
fn answer(answer: Result<Option<Progress>, Refusal>) -> String {
    match answer {
        Ok(None) => "done".into(),
        Ok(Some(Progress { done, left })) => format!("{done} done, {left} left"),
        Err(refusal) => refusal.to_string(),
    }
}

/// Holds what ours says to what is wanted.
fn agree<T: PartialEq + Copy>(
    wanted: T,
    ours: T,
    shown: impl Fn(T) -> String,
    input: impl Fn() -> String,
) -> Result<(), Difference> {
    if wanted == ours {
        return Ok(());
    }
    Err(Difference {
        input: input(),
        wanted: shown(wanted),
        ours: shown(ours),
    })
}

#[cfg(test)]
mod tests {
    use super::*;
    use jambharrow::Blocks;

    #[test]
    fn a_run_with_another_count_differs_and_shows_both() {
        let short = |found| Err(Refusal::WeightsShort(Some(Blocks { found, needed: 256 })));
        assert!(agree(short(128), short(128), answer, String::new).is_ok());
        let Err(shown) = agree(short(128), short(127), answer, || "run".into()) else {
            panic!("128 is not 127");
        };
        let wanted = "refused 3: 128 whole blocks of weights, 256 needed";
        let ours = "refused 3: 127 whole blocks of weights, 256 needed";
        assert_eq!(
            shown.to_string(),
            format!("run: wanted {wanted}, ours {ours}")
        );
    }
}
