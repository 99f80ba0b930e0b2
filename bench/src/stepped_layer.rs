//! A layer worked by pieces, from its open to the close of its last row, beside our own layer in one
//! go.
use crate::calls::Call;
use crate::measure::{Beside, Row, Size};
use crate::stepped_work::{Format, Work, CHUNK, FORMATS, SHAPES};
use jambharrow::Progress;
use std::hint::black_box;

pub const STEPPED: Call = Call {
    name: "a layer by steps",
    rows: || {
        let rows = |format: &Format| {
            SHAPES.map(|shape| {
                [
                    row(format, shape, "runs of 1", by_runs),
                    row(format, shape, "pieces", by_pieces),
                ]
            })
        };
        FORMATS.iter().flat_map(rows).flatten().collect()
    },
};

/// How much of the time in one go a layer by pieces may take at most.
const BAR: f64 = 1.1;

fn row(format: &Format, (size, shape): (Size, [usize; 2]), by: &str, worked: fn(&mut Work)) -> Row {
    let mut work = format.work(shape);
    let mut whole = work.clone();
    let one_go = format.one_go;
    let [out_feat, in_feat] = shape;
    Row {
        input: format!("{} {out_feat} x {in_feat}, {by}", format.name),
        size,
        values: out_feat * in_feat,
        calls: 1,
        bar: (size != Size::Small).then_some(BAR),
        vector: None,
        ours: Box::new(move || worked(black_box(&mut work))),
        beside: Beside::OneGo(Box::new(move || {
            let Work { w, x, y, .. } = black_box(&mut whole);
            one_go(x, w, y, 1, in_feat, out_feat).expect("the whole layer");
        })),
    }
}

/// The layer by runs, each with a budget of one piece.
fn by_runs(work: &mut Work) {
    let Work {
        layer,
        w,
        x,
        slots,
        marks,
        ..
    } = work;
    layer.open(slots, marks).expect("room for the layer");
    loop {
        let run = layer.run(w, x, 1, slots, marks);
        let Progress { left, .. } = run.expect("a layer that is open");
        if left == 0 {
            break;
        }
    }
    close_all(work);
}

/// The layer piece by piece, chunk after chunk.
fn by_pieces(work: &mut Work) {
    let Work {
        layer,
        w,
        x,
        slots,
        marks,
        ..
    } = work;
    layer.open(slots, marks).expect("room for the layer");
    for chunk in 0..layer.in_feat.div_ceil(CHUNK) {
        for row in 0..layer.out_feat {
            let piece = layer.piece(w, x, row, chunk, slots, marks);
            piece.expect("a piece that is open");
        }
    }
    close_all(work);
}

fn close_all(work: &mut Work) {
    for row in 0..work.layer.out_feat {
        let close = work.layer.close(row, &work.slots, &work.marks, &mut work.y);
        close.expect("a row that is done");
    }
}
