//! Damage to record files, of every kind that a cut upload, a bad link or another program makes.
use crate::record_makers::{any_file, any_window, record};
use crate::sample::count;
use oracle::random::Random;

/// Values of a length field that decide: the ends of its range, and what is no length at all.
const LENGTHS: [usize; 9] = [0, 1, 2, 3, 32_767, 32_768, 32_769, 0x8000_0002, 0xFFFF_FFFF];
const KINDS: [u16; 9] = [0, 1, 2, 3, 16, 17, 0x0100, 0x0201, 0xFFFF];
const FORMATS: [u8; 9] = [0, 1, 3, 4, 5, 6, 7, 0x44, 0xFF];
const IN_FEATS: [usize; 12] = [
    0,
    1,
    255,
    256,
    257,
    384,
    512,
    2_047,
    2_048,
    2_049,
    2_304,
    0x0100_0100,
];
const OUT_FEATS: [usize; 8] = [0, 1, 2, 15, 16, 17, 0x0100_0001, 0xFFFF_FFFF];

/// A file of any layers and windows; of every eight one is whole, and the others are damaged.
pub fn any_damaged_file(random: &mut Random) -> Vec<u8> {
    let mut records = any_file(random);
    if random.below(8) == 0 {
        return records.concat();
    }
    let mut file = match random.below(3) {
        0 => {
            mix_records(random, &mut records);
            records.concat()
        }
        1 => {
            change_a_record(random, &mut records);
            records.concat()
        }
        _ => {
            let file = records.concat();
            change_bytes(random, file)
        }
    };
    if random.below(6) == 0 {
        file = change_bytes(random, file);
    }
    file
}

/// Records change places, come twice, are missing, or come from another file.
fn mix_records(random: &mut Random, records: &mut Vec<Vec<u8>>) {
    for _ in 0..=random.below(2) {
        if records.is_empty() {
            return;
        }
        let at = random.below(records.len());
        match random.below(6) {
            0 => {
                let other = random.below(records.len());
                records.swap(at, other);
            }
            1 => records.insert(at, records[at].clone()),
            2 => drop(records.remove(at)),
            3 => {
                records.truncate(at);
                let other = any_file(random);
                let from = random.below(other.len());
                records.extend_from_slice(&other[from..]);
            }
            4 => records.insert(at, longest(random)),
            _ => records.insert(at, any_window(random, 256)),
        }
    }
}

/// A whole record of about the most length, so that the length alone decides about it.
fn longest(random: &mut Random) -> Vec<u8> {
    let length = any_of(random, &[32_767, 32_768, 32_769, 32_770]);
    record(any_of(random, &KINDS), &random.bytes(length - 2))
}

/// A record's fields no longer go with what it holds, or what it holds with its fields.
fn change_a_record(random: &mut Random, records: &mut [Vec<u8>]) {
    let chosen = random.below(records.len());
    let record = &mut records[chosen];
    let is_layer = record[4] == 1;
    match random.below(if is_layer { 10 } else { 5 }) {
        0 => set(record, 0, &count(any_of(random, &LENGTHS))),
        1 => {
            let length = (record.len() - 4) as u32;
            let by = any_of(random, &[1, 2, 4, 144, 176, 210, 256]);
            let length = match random.below(2) {
                0 => length.wrapping_add(by),
                _ => length.wrapping_sub(by),
            };
            set(record, 0, &length.to_le_bytes());
        }
        2 => set(record, 4, &any_of(random, &KINDS).to_le_bytes()),
        3 => resize_payload(random, record),
        4 => flip_bits(random, record, 15),
        5 => set(record, 6, &[any_of(random, &FORMATS)]),
        6 => set(record, 7, &count(any_of(random, &IN_FEATS))),
        7 => set(record, 11, &count(any_of(random, &OUT_FEATS))),
        8 => {
            set(record, 7, &count(any_of(random, &IN_FEATS)));
            set(record, 11, &count(any_of(random, &OUT_FEATS)));
        }
        _ => {
            record.truncate(6 + random.below(10));
            set_own_length(record);
        }
    }
}

/// The payload becomes shorter or longer, and the record's length says so.
fn resize_payload(random: &mut Random, record: &mut Vec<u8>) {
    let payload = record.len() - 6;
    let by = any_of(random, &[1, 2, 3, 4, 144, 176, 210, 1 + payload / 2]).min(payload);
    match random.below(2) {
        0 => record.truncate(record.len() - by),
        _ => record.extend(random.bytes(by)),
    }
    set_own_length(record);
}

/// Bytes are cut off, flipped, dropped, put in, or run on into another file.
fn change_bytes(random: &mut Random, mut file: Vec<u8>) -> Vec<u8> {
    if file.is_empty() {
        return file;
    }
    let at = random.below(file.len());
    match random.below(6) {
        0 => file.truncate(at),
        1 => {
            let len = file.len();
            flip_bits(random, &mut file, len);
        }
        2 => {
            let junk = 1 + random.below(40);
            file.extend(random.bytes(junk));
        }
        3 => file.extend(vec![0; 1 + random.below(40)]),
        4 => drop(file.drain(at..(at + 1 + random.below(8)).min(file.len()))),
        _ => {
            let other = any_file(random).concat();
            file.truncate(at);
            file.extend_from_slice(&other[random.below(other.len())..]);
        }
    }
    file
}

/// One to four bits flip within the first `within` bytes.
fn flip_bits(random: &mut Random, bytes: &mut [u8], within: usize) {
    let within = within.min(bytes.len());
    for _ in 0..=random.below(4) {
        bytes[random.below(within)] ^= 1 << random.below(8);
    }
}

/// Writes a field of a record, as far as the record reaches.
fn set(record: &mut [u8], at: usize, field: &[u8]) {
    for (place, &byte) in record.iter_mut().skip(at).zip(field) {
        *place = byte;
    }
}

/// Writes the length that a record has.
fn set_own_length(record: &mut [u8]) {
    let length = count(record.len() - 4);
    set(record, 0, &length);
}

fn any_of<T: Copy>(random: &mut Random, values: &[T]) -> T {
    values[random.below(values.len())]
}
