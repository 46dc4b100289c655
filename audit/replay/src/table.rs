//! The table MMD: registers filled from rows (docs/REGISTERS.md).

use crate::refusal::{NO_FIELD, NOT_SELF_CLEARING, Refusal};

/// What a row's bits are, with the row's number.
#[derive(Clone, Copy, PartialEq, Eq)]
pub enum Kind {
    Fixed(u16),
    Follower(u8),
    LatchingHigh(u8),
    LatchingLow(u8),
    Setting(u16),
    SelfClearing,
    ShortCounter(u8),
    HighHalf(u8),
    LowHalf(u8),
}

/// Bits high:low of a register.
#[derive(Clone, Copy)]
pub struct Row {
    pub register: u16,
    pub high: u8,
    pub low: u8,
    pub kind: Kind,
}

impl Row {
    const fn ones(&self) -> u16 {
        u16::MAX >> (15 - (self.high - self.low))
    }
}

/// An MMD of `N` rows that are in order. A row's state is the value of its latch, setting or self-clearing bit.
pub struct TableMmd<const N: usize> {
    rows: [Row; N],
    state: [u16; N],
    lines: u32,
    counters: [u32; 16],
    copies: [u32; 16],
}

impl<const N: usize> TableMmd<N> {
    /// Lines are down, so a latch that equals its line is zero.
    pub fn new(rows: [Row; N]) -> Self {
        let mut table = Self { rows, state: [0; N], lines: 0, counters: [0; 16], copies: [0; 16] };
        table.reset();
        table
    }

    fn line_of(lines: u32, line: u8) -> u16 {
        (lines >> line & 1) as u16
    }

    pub fn read(&mut self, register: u16) -> u16 {
        let mut word = 0;
        for (row, state) in self.rows.iter().zip(&mut self.state) {
            if row.register != register {
                continue;
            }
            let value = match row.kind {
                Kind::Fixed(value) => value,
                Kind::Follower(line) => Self::line_of(self.lines, line),
                Kind::LatchingHigh(line) | Kind::LatchingLow(line) => {
                    std::mem::replace(state, Self::line_of(self.lines, line))
                }
                Kind::Setting(_) | Kind::SelfClearing => *state,
                Kind::ShortCounter(counter) => std::mem::take(&mut self.counters[counter as usize]) as u16,
                Kind::HighHalf(counter) => {
                    let count = std::mem::take(&mut self.counters[counter as usize]);
                    self.copies[counter as usize] = count;
                    (count >> 16) as u16
                }
                Kind::LowHalf(counter) => self.copies[counter as usize] as u16,
            };
            word |= value << row.low;
        }
        word
    }

    pub fn write(&mut self, register: u16, word: u16) {
        for (row, state) in self.rows.iter().zip(&mut self.state) {
            if row.register != register {
                continue;
            }
            let written = word >> row.low & row.ones();
            match row.kind {
                Kind::Setting(_) => *state = written,
                Kind::SelfClearing => *state |= written,
                _ => {}
            }
        }
    }

    pub fn line(&mut self, line: u8, up: bool) {
        if line > 31 {
            return;
        }
        self.lines = self.lines & !(1 << line) | u32::from(up) << line;
        for (row, state) in self.rows.iter().zip(&mut self.state) {
            match row.kind {
                Kind::LatchingHigh(of) if of == line && up => *state = 1,
                Kind::LatchingLow(of) if of == line && !up => *state = 0,
                _ => {}
            }
        }
    }

    pub fn count(&mut self, counter: u8, amount: u16) -> Result<(), Refusal> {
        for row in &self.rows {
            let top = match row.kind {
                Kind::ShortCounter(of) if of == counter => u32::from(row.ones()),
                Kind::HighHalf(of) if of == counter => u32::MAX,
                _ => continue,
            };
            let count = &mut self.counters[counter as usize];
            *count = count.saturating_add(u32::from(amount)).min(top);
            return Ok(());
        }
        Err(NO_FIELD)
    }

    pub fn finish(&mut self, register: u16, bit: u8) -> Result<(), Refusal> {
        for (row, state) in self.rows.iter().zip(&mut self.state) {
            if row.register == register && row.low == bit && row.kind == Kind::SelfClearing {
                *state = 0;
                return Ok(());
            }
        }
        Err(NOT_SELF_CLEARING)
    }

    pub fn reset(&mut self) {
        for (row, state) in self.rows.iter().zip(&mut self.state) {
            *state = match row.kind {
                Kind::Setting(default) => default,
                Kind::LatchingHigh(line) | Kind::LatchingLow(line) => Self::line_of(self.lines, line),
                _ => 0,
            };
        }
        self.counters = [0; 16];
        self.copies = [0; 16];
    }
}

#[cfg(test)]
mod tests {
    use super::*;

    fn row(register: u16, high: u8, low: u8, kind: Kind) -> Row {
        Row { register, high, low, kind }
    }

    #[test]
    fn latches_follow_their_line_once_read() {
        let mut table = TableMmd::new([
            row(1, 0, 0, Kind::Follower(4)),
            row(1, 1, 1, Kind::LatchingHigh(4)),
            row(1, 2, 2, Kind::LatchingLow(4)),
        ]);
        assert_eq!(table.read(1), 0b000);
        table.line(4, true);
        assert_eq!(table.read(1), 0b011);
        assert_eq!(table.read(1), 0b111);
        table.line(4, false);
        assert_eq!(table.read(1), 0b010);
        assert_eq!(table.read(1), 0b000);
        table.line(4, true);
        table.reset();
        assert_eq!(table.read(1), 0b111);
    }

    #[test]
    fn settings_and_self_clearing_bits() {
        let mut table = TableMmd::new([row(2, 3, 0, Kind::Setting(9)), row(2, 8, 8, Kind::SelfClearing)]);
        assert_eq!(table.read(2), 0x0009);
        table.write(2, 0xfff6);
        assert_eq!(table.read(2), 0x0106);
        table.write(2, 0x0001);
        assert_eq!(table.read(2), 0x0101);
        assert_eq!(table.finish(2, 0), Err(NOT_SELF_CLEARING));
        assert_eq!(table.finish(2, 8), Ok(()));
        assert_eq!(table.read(2), 0x0001);
        table.write(2, 0x0100);
        table.reset();
        assert_eq!(table.read(2), 0x0009);
    }

    #[test]
    fn counters_stop_at_their_top() {
        let mut table = TableMmd::new([
            row(5, 7, 4, Kind::ShortCounter(2)),
            row(6, 15, 0, Kind::LowHalf(0)),
            row(7, 15, 0, Kind::HighHalf(0)),
        ]);
        assert_eq!(table.count(1, 1), Err(NO_FIELD));
        assert_eq!(table.count(2, 14), Ok(()));
        assert_eq!(table.count(2, 65535), Ok(()));
        assert_eq!(table.read(5), 0x00f0);
        assert_eq!(table.read(5), 0);
        for _ in 0..65538 {
            assert_eq!(table.count(0, 65535), Ok(()));
        }
        assert_eq!(table.read(6), 0);
        assert_eq!(table.read(7), 0xffff);
        assert_eq!(table.read(6), 0xffff);
        assert_eq!(table.read(7), 0);
        assert_eq!(table.read(6), 0);
    }
}
