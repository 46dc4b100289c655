//! Random traces: `generate SEED LENGTH [SORT]` writes the trace of that seed to standard output.

mod random;
mod records;

use records::{COUNTS, LINES, LISTED, MIXED, Records};
use std::io::{self, BufWriter, Write};
use std::process::ExitCode;

/// What sort of trace is made. Twenty seeds in a row have all of them.
#[derive(Clone, Copy)]
enum Sort {
    /// `length` records of all calls.
    Mixed,
    /// The same, and every third field is any byte.
    Wild,
    /// Mostly line calls and reads.
    Lines,
    /// Mostly count calls and reads.
    Counts,
    /// A counter, or what watchers are owed of it, comes to its top or close to it. Some 70,000 records more.
    Saturate,
    /// 0 to 8 records.
    Short,
    /// The last record is cut.
    Cut,
    ShortCut,
    /// A map that is not listed comes somewhere.
    Unlisted,
    ShortUnlisted,
}

use Sort::*;

const SORTS: [Sort; 20] = [
    Mixed,
    Mixed,
    Mixed,
    Mixed,
    Mixed,
    Mixed,
    Mixed,
    Short,
    Wild,
    Counts,
    Lines,
    Lines,
    Saturate,
    Cut,
    ShortCut,
    Unlisted,
    Unlisted,
    ShortUnlisted,
    ShortUnlisted,
    ShortUnlisted,
];

fn named(name: &str) -> Option<Sort> {
    Some(match name {
        "mixed" => Mixed,
        "wild" => Wild,
        "lines" => Lines,
        "counts" => Counts,
        "saturate" => Saturate,
        "short" => Short,
        "cut" => Cut,
        "unlisted" => Unlisted,
        _ => return None,
    })
}

/// Counts that add up to the top of a long counter, give or take 2, and then what shows it.
///
/// In variants 0 and 1 nothing reads that counter in between; 0 is about the watched counter, 1 about the other one. In
/// variant 2 the first four watchers look, and plain reads and resets come, so that the sums of the other watchers come
/// to the top, and the counter does not.
fn saturate(records: &mut Records<impl Write>, variant: u64) -> io::Result<()> {
    let counter = u8::from(variant == 1);
    let mut left = u64::from(u32::MAX) - 2 + u64::from(records.random.below(5));
    while left > 0 {
        let large = if records.random.once_in(16) { records.random.word() } else { u16::MAX };
        let amount = left.min(u64::from(large)) as u16;
        left -= u64::from(amount);
        records.count(1, 3, counter, amount)?;
        if !records.random.once_in(40) {
            continue;
        }
        let drawn = records.random.below(3);
        match (variant, drawn) {
            (2, 0) => records.plain_read(1, 3, 77)?,
            (2, 1) => records.reset(1, 3)?,
            (2, _) => {
                let watcher = records.random.below(4) as u8;
                records.watch_read(watcher, 1)?;
            }
            (_, 0) => records.plain_read(1, 3, if counter == 0 { 79 } else { 77 })?,
            (_, 1) => records.plain_read(1, 3, if counter == 0 { 76 } else { 78 })?,
            (_, _) => records.reset(1, 1)?,
        }
    }
    for _ in 0..records.random.below(4) {
        let little = records.random.below(3) as u16;
        records.count(1, 3, counter, little)?;
    }
    if counter == 1 {
        records.plain_read(1, 3, 78)?;
        records.plain_read(1, 3, 79)?;
        return records.plain_read(1, 3, 78);
    }
    let first = records.random.byte();
    for next in 0..8 {
        records.watch_read(first.wrapping_add(next * 3) & 7, 1)?;
        if records.random.once_in(4) {
            let little = records.random.below(3) as u16;
            records.count(1, 3, 0, little)?;
        }
    }
    Ok(())
}

/// The end of a trace whose last record is cut: each map is cut everywhere, from one instance to the next.
fn cut(records: &mut Records<impl Write>, instance: u64) -> io::Result<()> {
    let cuts = LISTED.iter().enumerate().flat_map(|(index, &(_, length))| (1..length).map(move |kept| (index, kept)));
    let number = cuts.clone().count() as u64;
    let (index, kept) = cuts.clone().nth((instance % number) as usize).expect("a cut");
    let record = records.spelled(index);
    records.bytes(&record[..kept])
}

/// A map that is not listed, the next one from one instance to the next, and maybe something behind it.
fn unlisted(records: &mut Records<impl Write>, instance: u64) -> io::Result<()> {
    let maps = (0..=u8::MAX).filter(|map| LISTED.iter().all(|(listed, _)| listed != map));
    let map = maps.clone().nth((instance % maps.clone().count() as u64) as usize).expect("a map");
    records.bytes(&[map])?;
    match records.random.below(3) {
        0 => Ok(()),
        1 => {
            let byte = records.random.byte();
            records.bytes(&[byte])
        }
        _ => {
            let length = u64::from(records.random.below(20));
            records.many(length)
        }
    }
}

fn generate(output: impl Write, seed: u64, length: u64, sort: Sort) -> io::Result<()> {
    let weights = match sort {
        Lines => LINES,
        Counts | Saturate => COUNTS,
        _ => MIXED,
    };
    let wild = if matches!(sort, Wild) { 3 } else { 4096 };
    let mut records = Records::new(output, seed, weights, wild);
    let round = seed / SORTS.len() as u64;
    let place = seed % SORTS.len() as u64;
    match sort {
        Mixed | Wild | Lines | Counts => records.many(length)?,
        Saturate => {
            let before = u64::from(records.random.below(50));
            records.many(before)?;
            saturate(&mut records, round % 3)?;
            records.many(length / 4)?;
        }
        Short => records.many(round % 9)?,
        Cut | ShortCut => {
            let before = if matches!(sort, Cut) { length } else { u64::from(records.random.below(4)) };
            records.many(before)?;
            cut(&mut records, 2 * round + place % 2)?;
        }
        Unlisted | ShortUnlisted => {
            let most = if matches!(sort, Unlisted) { length.min(u64::from(u32::MAX - 1)) as u32 } else { 4 };
            let before = u64::from(records.random.below(most + 1));
            records.many(before)?;
            unlisted(&mut records, 5 * round + place % 5)?;
        }
    }
    records.flush()
}

fn main() -> ExitCode {
    let arguments: Vec<String> = std::env::args().skip(1).collect();
    let parsed = match arguments.as_slice() {
        [seed, length] => seed
            .parse()
            .ok()
            .zip(length.parse().ok())
            .map(|(seed, length): (u64, u64)| (seed, length, SORTS[(seed % SORTS.len() as u64) as usize])),
        [seed, length, sort] => match (seed.parse(), length.parse(), named(sort)) {
            (Ok(seed), Ok(length), Some(sort)) => Some((seed, length, sort)),
            _ => None,
        },
        _ => None,
    };
    let Some((seed, length, sort)) = parsed else {
        eprintln!("usage: generate SEED LENGTH [mixed|wild|lines|counts|saturate|short|cut|unlisted]");
        return ExitCode::FAILURE;
    };
    match generate(BufWriter::with_capacity(1 << 16, io::stdout().lock()), seed, length, sort) {
        Ok(()) => ExitCode::SUCCESS,
        Err(error) => {
            eprintln!("generate: {error}");
            ExitCode::FAILURE
        }
    }
}
