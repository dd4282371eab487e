//! Replay files that break off: a record whose mark isn't right, or too few bytes at the end (01, Replay file). It may
//! stand anywhere and have more behind it, which nobody may read.

use super::{Generator, Profile};
use crate::random::Random;
use crate::replay::{encode, RECORD};

/// Good records with one that is broken among them, then good ones again; now and then nothing at all.
pub fn file(seed: u64, records: u32) -> Vec<u8> {
    let mut random = Random::new(seed);
    let before = match random.below(8) {
        0 => 0,
        1 => records.saturating_sub(1),
        _ => random.below(records.max(1)),
    };
    let mut file = Vec::new();
    if records == 0 || random.once_in(16) {
        return file;
    }
    let mut generator = Generator::new(Profile::Mixed, random.number());
    for _ in 0..before {
        file.extend(encode(&generator.step().0));
    }
    let ends = add_broken(&mut file, &mut generator, &mut random);
    if !ends && !random.once_in(4) {
        for _ in before + 1..records {
            file.extend(encode(&generator.step().0));
        }
    }
    file
}

/// Adds the broken record. True where the file must end with it, because more would make it whole.
fn add_broken(file: &mut Vec<u8>, generator: &mut Generator, random: &mut Random) -> bool {
    let mut record = encode(&generator.pick());
    match random.below(8) {
        0 => record[0] = other_than(record[0], random),
        1 => record[1] = other_than(record[1], random),
        2 => record.swap(0, 1),
        3 => record[..2].fill(0),
        4 => {
            // A byte too many: the mark stands one place too late.
            file.push(random.of(&[0x00, 0xAC, 0xDC]));
            file.extend(record);
            return false;
        }
        5 => {
            // The mark is wrong and the record short at once.
            record[0] = other_than(record[0], random);
            return add_short(file, &record, random);
        }
        _ => return add_short(file, &record, random),
    }
    file.extend(record);
    false
}

fn add_short(file: &mut Vec<u8>, record: &[u8; RECORD], random: &mut Random) -> bool {
    let length = random.between(1, RECORD as u32 - 1) as usize;
    file.extend(&record[..length]);
    true
}

/// A bit away, or any other byte.
fn other_than(byte: u8, random: &mut Random) -> u8 {
    if random.percent(50) {
        byte ^ (1 << random.below(8))
    } else {
        byte.wrapping_add(random.between(1, 255) as u8)
    }
}
