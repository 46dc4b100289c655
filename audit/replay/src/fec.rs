//! The FEC MMD: the 10G-EPON FEC registers of device 3, wired (docs/REGISTERS.md).

use crate::refusal::{NO_FIELD, NOT_SELF_CLEARING, Refusal};

const BER_MONITOR_DEFAULT: u16 = 16 << 8 | 25;

pub struct FecMmd {
    corrected: LongCounter,
    uncorrected: LongCounter,
    ber_monitor: u16,
    error_indication: bool,
    high_ber: bool,
    latched_high_ber: bool,
}

#[derive(Default)]
struct LongCounter {
    count: u32,
    copy: u32,
}

impl LongCounter {
    fn add(&mut self, amount: u16) {
        self.count = self.count.saturating_add(u32::from(amount));
    }

    fn read_high(&mut self) -> u16 {
        self.copy = std::mem::take(&mut self.count);
        (self.copy >> 16) as u16
    }

    fn read_low(&self) -> u16 {
        self.copy as u16
    }
}

impl Default for FecMmd {
    fn default() -> Self {
        Self {
            corrected: LongCounter::default(),
            uncorrected: LongCounter::default(),
            ber_monitor: BER_MONITOR_DEFAULT,
            error_indication: false,
            high_ber: false,
            latched_high_ber: false,
        }
    }
}

impl FecMmd {
    pub fn read(&mut self, register: u16) -> u16 {
        match register {
            74 => 3,
            75 => u16::from(self.error_indication) << 1 | 1,
            76 => self.corrected.read_low(),
            77 => self.corrected.read_high(),
            78 => self.uncorrected.read_low(),
            79 => self.uncorrected.read_high(),
            80 => self.ber_monitor,
            81 => {
                let latched = std::mem::replace(&mut self.latched_high_ber, self.high_ber);
                u16::from(latched) << 1 | u16::from(self.high_ber)
            }
            _ => 0,
        }
    }

    pub fn write(&mut self, register: u16, word: u16) {
        match register {
            75 => self.error_indication = word & 2 != 0,
            80 => self.ber_monitor = word,
            _ => {}
        }
    }

    pub fn line(&mut self, line: u8, up: bool) {
        if line == 0 {
            self.high_ber = up;
            self.latched_high_ber |= up;
        }
    }

    pub fn count(&mut self, counter: u8, amount: u16) -> Result<(), Refusal> {
        match counter {
            0 => self.corrected.add(amount),
            1 => self.uncorrected.add(amount),
            _ => return Err(NO_FIELD),
        }
        Ok(())
    }

    /// No bit is self-clearing.
    pub fn finish(&mut self, _register: u16, _bit: u8) -> Result<(), Refusal> {
        Err(NOT_SELF_CLEARING)
    }

    pub fn reset(&mut self) {
        *self = Self { high_ber: self.high_ber, latched_high_ber: self.high_ber, ..Self::default() };
    }
}

#[cfg(test)]
mod tests {
    use super::*;
    use crate::table::{Kind, Row, TableMmd};

    fn row(register: u16, high: u8, low: u8, kind: Kind) -> Row {
        Row { register, high, low, kind }
    }

    /// The wired MMD acts as a table of the same rows does.
    #[test]
    fn acts_as_its_table() {
        let mut table = TableMmd::new([
            row(74, 1, 0, Kind::Fixed(3)),
            row(75, 0, 0, Kind::Fixed(1)),
            row(75, 1, 1, Kind::Setting(0)),
            row(76, 15, 0, Kind::LowHalf(0)),
            row(77, 15, 0, Kind::HighHalf(0)),
            row(78, 15, 0, Kind::LowHalf(1)),
            row(79, 15, 0, Kind::HighHalf(1)),
            row(80, 7, 0, Kind::Setting(25)),
            row(80, 15, 8, Kind::Setting(16)),
            row(81, 0, 0, Kind::Follower(0)),
            row(81, 1, 1, Kind::LatchingHigh(0)),
        ]);
        let mut fec = FecMmd::default();
        let mut seed = 1u64;
        for _ in 0..1_000_000 {
            seed = seed.wrapping_mul(6364136223846793005).wrapping_add(1442695040888963407);
            let pick = (seed >> 56) as u8;
            let register = 73 + (seed >> 40) as u16 % 10;
            let word = (seed >> 24) as u16;
            let small = (seed >> 20) as u8 % 4;
            match pick {
                0..=99 => assert_eq!(fec.read(register), table.read(register)),
                100..=149 => {
                    fec.write(register, word);
                    table.write(register, word);
                }
                150..=189 => {
                    fec.line(small, word & 1 != 0);
                    table.line(small, word & 1 != 0);
                }
                190..=249 => assert_eq!(fec.count(small, word), table.count(small, word)),
                250..=253 => assert_eq!(fec.finish(register, small), table.finish(register, small)),
                _ => {
                    fec.reset();
                    table.reset();
                }
            }
        }
    }
}
