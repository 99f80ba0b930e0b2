//! The four calls of the stepped layer, each by itself. The Rust has none of them; beside a piece
//! stands its dot of the same chunk, beside a run over all pieces its layer in one go, and beside a
//! close its tree over the sums of a row's chunks.
use crate::calls::Call;
use crate::fixed_order_sums::turn_of_combine;
use crate::measure::{Beside, Row, Size, Turn};
use crate::stepped_work::{Format, Work, CHUNK, FORMATS, SHAPES};
use oracle::ops::quant;
use std::hint::black_box;

pub const OPEN: Call = Call {
    name: "open",
    rows: || rows(|_, work| pieces(work), open, |_, _| Beside::Nothing),
};

pub const PIECE: Call = Call {
    name: "piece",
    rows: || {
        rows(
            |_, work| work.layer.in_feat.min(CHUNK),
            piece,
            |format, work| Beside::Rust(rust_piece(format, work)),
        )
    },
};

pub const RUN: Call = Call {
    name: "run",
    rows: || {
        rows(
            |_, work| work.layer.in_feat * work.layer.out_feat,
            run,
            |format, work| Beside::Rust(rust_layer(format, work)),
        )
    },
};

pub const CLOSE: Call = Call {
    name: "close",
    rows: || {
        rows(
            |_, work| work.layer.in_feat.div_ceil(CHUNK),
            close,
            |_, work| Beside::Rust(rust_tree(work)),
        )
    },
};

/// A row for each format and shape: how many values the call goes through, and the two sides.
fn rows(
    values: fn(&Format, &Work) -> usize,
    ours: fn(Work) -> Turn,
    beside: fn(&Format, &Work) -> Beside,
) -> Vec<Row> {
    let row = |format: &Format, (size, shape): (Size, [usize; 2])| {
        let work = format.work(shape);
        let [out_feat, in_feat] = shape;
        Row {
            input: format!("{} {out_feat} x {in_feat}", format.name),
            size,
            values: values(format, &work),
            calls: 1,
            bar: None,
            vector: None,
            beside: beside(format, &work),
            ours: ours(work),
        }
    };
    FORMATS
        .iter()
        .flat_map(|format| SHAPES.map(|shape| row(format, shape)))
        .collect()
}

fn pieces(work: &Work) -> usize {
    work.slots.len()
}

fn open(mut work: Work) -> Turn {
    Box::new(move || {
        let Work {
            layer,
            slots,
            marks,
            ..
        } = black_box(&mut work);
        layer.open(slots, marks).expect("room for the layer");
    })
}

/// The first piece. Its mark is taken away first, since a piece is worked once.
fn piece(mut work: Work) -> Turn {
    Box::new(move || {
        let Work {
            layer,
            w,
            x,
            slots,
            marks,
            ..
        } = black_box(&mut work);
        marks[0] = 0;
        let piece = layer.piece(w, x, 0, 0, slots, marks);
        piece.expect("a piece that is open");
    })
}

fn rust_piece(format: &Format, work: &Work) -> Turn {
    let dot = black_box(format.rust_row_dot);
    let n = work.layer.in_feat.min(CHUNK);
    let bytes = n / format.layout.values * format.layout.bytes;
    let (x, w) = (work.x[..n].to_vec(), work.w[..bytes].to_vec());
    Box::new(move || {
        let (x, w) = black_box((&x, &w));
        black_box(dot(x, w, n)).expect("a row of n places");
    })
}

/// All pieces. Their marks are taken away first.
fn run(mut work: Work) -> Turn {
    Box::new(move || {
        let Work {
            layer,
            w,
            x,
            slots,
            marks,
            ..
        } = black_box(&mut work);
        marks.fill(0);
        let run = layer.run(w, x, slots.len(), slots, marks);
        run.expect("a layer that is open");
    })
}

fn rust_layer(format: &Format, work: &Work) -> Turn {
    let one_go = black_box(format.rust_one_go);
    let mut work = work.clone();
    Box::new(move || {
        let Work { layer, w, x, y, .. } = black_box(&mut work);
        one_go(x, w, y, 1, layer.in_feat, layer.out_feat).expect("the whole layer");
    })
}

/// The first row, all of whose pieces are done.
fn close(mut work: Work) -> Turn {
    work.marks.fill(1);
    Box::new(move || {
        let Work {
            layer,
            slots,
            marks,
            y,
            ..
        } = black_box(&mut work);
        let close = layer.close(0, slots, marks, y);
        close.expect("a row that is done");
    })
}

fn rust_tree(work: &Work) -> Turn {
    let sums = work.slots[..work.layer.in_feat.div_ceil(CHUNK)].to_vec();
    let combine: fn(&mut [f32]) -> f32 = black_box(quant::canonical_combine);
    turn_of_combine(sums, combine)
}
