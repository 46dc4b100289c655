//! Records of calls (docs/TRACE.md), with fields that mostly fit the card and sometimes do not.

use crate::random::Random;
use std::io::{self, Write};

/// The listed maps and the lengths of their records.
pub const LISTED: [(u8, usize); 7] = [(0x03, 5), (0x07, 7), (0x08, 3), (0x11, 4), (0x21, 6), (0x41, 3), (0x83, 6)];

/// How often each call is drawn, in the order of `LISTED`.
pub type Weights = [u32; 7];

pub const MIXED: Weights = [24, 12, 20, 16, 18, 4, 6];
pub const LINES: Weights = [20, 2, 24, 48, 2, 3, 1];
pub const COUNTS: Weights = [20, 4, 20, 4, 48, 3, 1];

pub struct Records<W: Write> {
    output: W,
    pub random: Random,
    weights: Weights,
    /// Once in how many times a field is any byte.
    wild: u32,
}

impl<W: Write> Records<W> {
    pub fn new(output: W, seed: u64, weights: Weights, wild: u32) -> Self {
        Self { output, random: Random::new(seed), weights, wild }
    }

    pub fn bytes(&mut self, bytes: &[u8]) -> io::Result<()> {
        self.output.write_all(bytes)
    }

    pub fn flush(&mut self) -> io::Result<()> {
        self.output.flush()
    }

    fn port(&mut self) -> u8 {
        match self.random.below(48) {
            0 => self.random.of(&[0, 2, 3, 30, 31]),
            1 => self.random.of(&[32, 33, 128, 129, 255]),
            _ if self.random.once_in(self.wild) => self.random.byte(),
            _ => 1,
        }
    }

    fn device(&mut self) -> u8 {
        match self.random.below(48) {
            0 => self.random.of(&[0, 2, 4, 30, 31]),
            1 => self.random.of(&[32, 33, 35, 129, 131, 255]),
            _ if self.random.once_in(self.wild) => self.random.byte(),
            2..20 => 1,
            _ => 3,
        }
    }

    fn register(&mut self, device: u8) -> u16 {
        match self.random.below(32) {
            0 => {
                self.random.of(&[0, 1, 7, 9, 73, 82, 255, 256, 0x0108, 0x014d, 0x0800, 0x4c00, 0x4d00, 0x8008, 0xffff])
            }
            1 => self.random.word(),
            2 => self.random.of(&[8, 74, 75, 76, 77, 78, 79, 80, 81]),
            _ if self.random.once_in(self.wild) => self.random.word(),
            _ if device == 1 => 8,
            _ => 74 + self.random.below(8) as u16,
        }
    }

    /// Mostly one of the `usual`, sometimes one of the `listed`, seldom anything.
    fn small(&mut self, usual: u32, listed: u32) -> u8 {
        match self.random.below(32) {
            0 => self.random.byte(),
            _ if self.random.once_in(self.wild) => self.random.byte(),
            1..6 => self.random.below(listed) as u8,
            _ => self.random.below(usual) as u8,
        }
    }

    fn data(&mut self) -> u16 {
        match self.random.below(4) {
            0 => self.random.of(&[0, 1, 2, 0x0101, 0x8000, 0xffff]),
            _ => self.random.word(),
        }
    }

    fn amount(&mut self) -> u16 {
        match self.random.below(4) {
            0 => self.random.of(&[0, 1, 255, 256, 32768, 65534, 65535]),
            1 => self.random.below(100) as u16,
            _ => self.random.word(),
        }
    }

    pub fn plain_read(&mut self, port: u8, device: u8, register: u16) -> io::Result<()> {
        let [high, low] = register.to_be_bytes();
        self.bytes(&[0x03, port, device, high, low])
    }

    pub fn watch_read(&mut self, watcher: u8, entry: u8) -> io::Result<()> {
        self.bytes(&[0x08, watcher, entry])
    }

    pub fn count(&mut self, port: u8, device: u8, counter: u8, amount: u16) -> io::Result<()> {
        let [high, low] = amount.to_be_bytes();
        self.bytes(&[0x21, port, device, counter, high, low])
    }

    pub fn reset(&mut self, port: u8, device: u8) -> io::Result<()> {
        self.bytes(&[0x41, port, device])
    }

    /// A record whose map is that of `LISTED` at `index`, in the first bytes of an array.
    pub fn spelled(&mut self, index: usize) -> [u8; 7] {
        let map = LISTED[index].0;
        if map == 0x08 {
            return [map, self.small(8, 10), self.small(2, 4), 0, 0, 0, 0];
        }
        let (port, device) = (self.port(), self.device());
        let [high, low] = self.register(device).to_be_bytes();
        match map {
            0x03 => [map, port, device, high, low, 0, 0],
            0x07 => {
                let [data_high, data_low] = self.data().to_be_bytes();
                [map, port, device, high, low, data_high, data_low]
            }
            0x11 => {
                let line = self.small(2, 34) & 0x7f | self.random.byte() & 0x80;
                [map, port, device, line, 0, 0, 0]
            }
            0x21 => {
                let [amount_high, amount_low] = self.amount().to_be_bytes();
                [map, port, device, self.small(2, 18), amount_high, amount_low, 0]
            }
            0x83 => [map, port, device, high, low, self.small(16, 18), 0],
            _ => [map, port, device, 0, 0, 0, 0],
        }
    }

    /// Any record, by the weights.
    pub fn any(&mut self) -> io::Result<()> {
        let mut drawn = self.random.below(self.weights.iter().sum());
        let mut index = 0;
        while drawn >= self.weights[index] {
            drawn -= self.weights[index];
            index += 1;
        }
        let record = self.spelled(index);
        self.bytes(&record[..LISTED[index].1])
    }

    pub fn many(&mut self, length: u64) -> io::Result<()> {
        (0..length).try_for_each(|_| self.any())
    }
}
