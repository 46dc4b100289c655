//! The station over the card's bank, with the card's watch list (docs/STATION.md, docs/WATCH_LIST.md).
//!
//! The count of frames and the address registers are not kept: no call of a trace shows them.

use crate::fec::FecMmd;
use crate::refusal::{NO_DEVICE, NO_PORT, OUT_OF_RANGE, Refusal};
use crate::table::{Kind, Row, TableMmd};

const WATCHERS: usize = 8;

const ROWS: [Row; 2] = [
    Row { register: 8, high: 11, low: 11, kind: Kind::LatchingHigh(1) },
    Row { register: 8, high: 15, low: 14, kind: Kind::Fixed(2) },
];

/// Entry 0, a latch entry of device 1.
const LATCH_REGISTER: u16 = 8;
const HIGH_MASK: u16 = 0x0800;
const LOW_MASK: u16 = 0x0000;

/// Entry 1, a count entry of device 3.
const HIGH_REGISTER: u16 = 77;
const LOW_REGISTER: u16 = 76;

/// A latch entry's kept words: for each watcher the OR and the AND of the readings.
struct LatchWords {
    any: [u16; WATCHERS],
    all: [u16; WATCHERS],
}

impl LatchWords {
    fn new() -> Self {
        Self { any: [0; WATCHERS], all: [u16::MAX; WATCHERS] }
    }

    fn take_in(&mut self, reading: u16) {
        for any in &mut self.any {
            *any |= reading;
        }
        for all in &mut self.all {
            *all &= reading;
        }
    }

    fn look(&mut self, watcher: usize) -> u32 {
        let any = std::mem::replace(&mut self.any[watcher], 0);
        let all = std::mem::replace(&mut self.all[watcher], u16::MAX);
        u32::from(any & HIGH_MASK | all & LOW_MASK)
    }
}

/// A count entry's kept words: for each watcher the sum of the readings.
struct CountWords([u32; WATCHERS]);

impl CountWords {
    fn take_in(&mut self, reading: u32) {
        for sum in &mut self.0 {
            *sum = sum.saturating_add(reading);
        }
    }

    fn look(&mut self, watcher: usize) -> u32 {
        std::mem::take(&mut self.0[watcher])
    }
}

/// The MMD that an address leads to.
enum Place {
    Table,
    Fec,
}

#[inline]
fn place(port: u8, device: u8) -> Result<Place, Refusal> {
    match (port, device) {
        (1, 1) => Ok(Place::Table),
        (1, 3) => Ok(Place::Fec),
        _ if port > 31 || device > 31 => Err(OUT_OF_RANGE),
        (1, _) => Err(NO_DEVICE),
        _ => Err(NO_PORT),
    }
}

pub struct Station {
    table: TableMmd<2>,
    fec: FecMmd,
    latches: LatchWords,
    counts: CountWords,
}

impl Default for Station {
    fn default() -> Self {
        Self {
            table: TableMmd::new(ROWS),
            fec: FecMmd::default(),
            latches: LatchWords::new(),
            counts: CountWords([0; WATCHERS]),
        }
    }
}

impl Station {
    fn read_latch_entry(&mut self) -> u16 {
        let reading = self.table.read(LATCH_REGISTER);
        self.latches.take_in(reading);
        reading
    }

    /// Answers the high half's word.
    fn read_count_entry(&mut self) -> u16 {
        let high = self.fec.read(HIGH_REGISTER);
        let low = self.fec.read(LOW_REGISTER);
        self.counts.take_in(u32::from(high) << 16 | u32::from(low));
        high
    }

    #[inline]
    pub fn watch_read(&mut self, watcher: u8, entry: u8) -> Result<u32, Refusal> {
        let watcher = usize::from(watcher);
        if watcher >= WATCHERS {
            return Err(OUT_OF_RANGE);
        }
        match entry {
            0 => {
                self.read_latch_entry();
                Ok(self.latches.look(watcher))
            }
            1 => {
                self.read_count_entry();
                Ok(self.counts.look(watcher))
            }
            _ => Err(OUT_OF_RANGE),
        }
    }

    #[inline]
    pub fn plain_read(&mut self, port: u8, device: u8, register: u16) -> Result<u16, Refusal> {
        Ok(match (place(port, device)?, register) {
            (Place::Table, LATCH_REGISTER) => self.read_latch_entry(),
            (Place::Table, _) => self.table.read(register),
            (Place::Fec, HIGH_REGISTER) => self.read_count_entry(),
            (Place::Fec, _) => self.fec.read(register),
        })
    }

    #[inline]
    pub fn write(&mut self, port: u8, device: u8, register: u16, word: u16) -> Result<(), Refusal> {
        match place(port, device)? {
            Place::Table => self.table.write(register, word),
            Place::Fec => self.fec.write(register, word),
        }
        Ok(())
    }

    #[inline]
    pub fn line(&mut self, port: u8, device: u8, line: u8, up: bool) -> Result<(), Refusal> {
        if line > 31 {
            return Err(OUT_OF_RANGE);
        }
        match place(port, device)? {
            Place::Table => self.table.line(line, up),
            Place::Fec => self.fec.line(line, up),
        }
        Ok(())
    }

    #[inline]
    pub fn count(&mut self, port: u8, device: u8, counter: u8, amount: u16) -> Result<(), Refusal> {
        if counter > 15 {
            return Err(OUT_OF_RANGE);
        }
        match place(port, device)? {
            Place::Table => self.table.count(counter, amount),
            Place::Fec => self.fec.count(counter, amount),
        }
    }

    #[inline]
    pub fn finish(&mut self, port: u8, device: u8, register: u16, bit: u8) -> Result<(), Refusal> {
        if bit > 15 {
            return Err(OUT_OF_RANGE);
        }
        match place(port, device)? {
            Place::Table => self.table.finish(register, bit),
            Place::Fec => self.fec.finish(register, bit),
        }
    }

    #[inline]
    pub fn reset(&mut self, port: u8, device: u8) -> Result<(), Refusal> {
        match place(port, device)? {
            Place::Table => {
                self.read_latch_entry();
                self.table.reset();
            }
            Place::Fec => {
                self.read_count_entry();
                self.fec.reset();
            }
        }
        Ok(())
    }
}

#[cfg(test)]
mod tests {
    use super::*;
    use crate::refusal::{NO_FIELD, NOT_SELF_CLEARING};

    /// The story of docs/STATION.md: the feeder is watcher 0, the screens are watcher 1.
    #[test]
    fn story() {
        let mut station = Station::default();
        let words = |station: &Station| (station.latches.any[0], station.latches.any[1]);
        assert_eq!(station.line(1, 1, 1, true), Ok(()));
        assert_eq!(station.line(1, 1, 1, false), Ok(()));
        assert_eq!(words(&station), (0, 0));
        assert_eq!(station.plain_read(1, 1, 8), Ok(0x8800));
        assert_eq!(words(&station), (0x8800, 0x8800));
        assert_eq!(station.watch_read(0, 0), Ok(0x0800));
        assert_eq!(words(&station), (0, 0x8800));
        assert_eq!(station.watch_read(0, 0), Ok(0));
        assert_eq!(station.line(1, 1, 1, true), Ok(()));
        assert_eq!(station.line(1, 1, 1, false), Ok(()));
        assert_eq!(words(&station), (0, 0x8800));
        assert_eq!(station.reset(1, 1), Ok(()));
        assert_eq!(words(&station), (0x8800, 0x8800));
        assert_eq!(station.watch_read(0, 0), Ok(0x0800));
        assert_eq!(station.watch_read(1, 0), Ok(0x0800));
        assert_eq!(words(&station), (0x8000, 0));
    }

    #[test]
    fn counter_story() {
        let mut station = Station::default();
        assert_eq!(station.count(1, 3, 0, 5), Ok(()));
        assert_eq!(station.plain_read(1, 3, 77), Ok(0));
        assert_eq!(station.counts.0, [5; WATCHERS]);
        assert_eq!(station.plain_read(1, 3, 76), Ok(5));
        assert_eq!(station.plain_read(1, 3, 76), Ok(5));
        assert_eq!(station.counts.0, [5; WATCHERS]);
        assert_eq!(station.count(1, 3, 0, 7), Ok(()));
        assert_eq!(station.reset(1, 3), Ok(()));
        assert_eq!(station.plain_read(1, 3, 76), Ok(0));
        assert_eq!(station.watch_read(7, 1), Ok(12));
        assert_eq!(station.watch_read(7, 1), Ok(0));
        assert_eq!(station.watch_read(6, 1), Ok(12));
    }

    #[test]
    fn refusals_in_order() {
        let mut station = Station::default();
        assert_eq!(station.watch_read(8, 0), Err(OUT_OF_RANGE));
        assert_eq!(station.watch_read(0, 2), Err(OUT_OF_RANGE));
        assert_eq!(station.plain_read(32, 1, 8), Err(OUT_OF_RANGE));
        assert_eq!(station.plain_read(2, 32, 8), Err(OUT_OF_RANGE));
        assert_eq!(station.plain_read(2, 1, 8), Err(NO_PORT));
        assert_eq!(station.plain_read(1, 2, 8), Err(NO_DEVICE));
        assert_eq!(station.line(2, 1, 32, true), Err(OUT_OF_RANGE));
        assert_eq!(station.line(1, 1, 31, true), Ok(()));
        assert_eq!(station.count(2, 1, 16, 0), Err(OUT_OF_RANGE));
        assert_eq!(station.count(2, 1, 15, 0), Err(NO_PORT));
        assert_eq!(station.count(1, 0, 15, 0), Err(NO_DEVICE));
        assert_eq!(station.count(1, 1, 0, 0), Err(NO_FIELD));
        assert_eq!(station.count(1, 3, 2, 0), Err(NO_FIELD));
        assert_eq!(station.finish(2, 1, 8, 16), Err(OUT_OF_RANGE));
        assert_eq!(station.finish(2, 1, 8, 15), Err(NO_PORT));
        assert_eq!(station.finish(1, 0, 8, 15), Err(NO_DEVICE));
        assert_eq!(station.finish(1, 1, 8, 15), Err(NOT_SELF_CLEARING));
        assert_eq!(station.finish(1, 3, 75, 1), Err(NOT_SELF_CLEARING));
    }
}
