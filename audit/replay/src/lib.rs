//! A trace replayed on the card, written from the documents alone.

mod fec;
mod line;
pub mod refusal;
mod station;
pub mod table;

use refusal::Refusal;
use station::Station;
use std::io::{self, ErrorKind, Read, Write};

/// The longest record.
const RECORD: usize = 7;

const INPUT: usize = 1 << 16;
const OUTPUT: usize = 1 << 16;

/// The length of a whole record, by its map.
const fn length(map: u8) -> Option<usize> {
    match map {
        0x03 => Some(5),
        0x07 => Some(7),
        0x08 => Some(3),
        0x11 => Some(4),
        0x21 => Some(6),
        0x41 => Some(3),
        0x83 => Some(6),
        _ => None,
    }
}

/// Works the record at the start of `record`: its length and that of its line, or none if its map is not listed.
#[inline(always)]
fn work(station: &mut Station, record: &[u8; RECORD], line: &mut [u8; line::LONGEST]) -> Option<(usize, usize)> {
    fn void(line: &mut [u8; line::LONGEST], answer: Result<(), Refusal>) -> usize {
        match answer {
            Ok(()) => line::done(line),
            Err(Refusal(number)) => line::refused(line, number),
        }
    }
    let &[map, a, b, c, d, e, f] = record;
    let register = u16::from_be_bytes([c, d]);
    Some(match map {
        0x03 => {
            let written = match station.plain_read(a, b, register) {
                Ok(word) => line::data(line, word),
                Err(Refusal(number)) => line::refused(line, number),
            };
            (5, written)
        }
        0x07 => (7, void(line, station.write(a, b, register, u16::from_be_bytes([e, f])))),
        0x08 => {
            let written = match station.watch_read(a, b) {
                Ok(word) => line::told(line, word),
                Err(Refusal(number)) => line::refused(line, number),
            };
            (3, written)
        }
        0x11 => (4, void(line, station.line(a, b, c & 0x7f, c & 0x80 != 0))),
        0x21 => (6, void(line, station.count(a, b, c, u16::from_be_bytes([d, e])))),
        0x41 => (3, void(line, station.reset(a, b))),
        0x83 => (6, void(line, station.finish(a, b, register, e))),
        _ => return None,
    })
}

/// The lines that are not written out yet.
struct Lines<W: Write> {
    output: W,
    buffer: Box<[u8; OUTPUT]>,
    length: usize,
}

impl<W: Write> Lines<W> {
    /// Room for one more line.
    #[inline(always)]
    fn room(&mut self) -> io::Result<&mut [u8; line::LONGEST]> {
        if self.length > OUTPUT - line::LONGEST {
            self.flush()?;
        }
        Ok(self.buffer[self.length..].first_chunk_mut().expect("there is room for a line"))
    }

    #[cold]
    #[inline(never)]
    fn flush(&mut self) -> io::Result<()> {
        self.output.write_all(&self.buffer[..self.length])?;
        self.length = 0;
        Ok(())
    }
}

/// Reads a trace to its end, or to what stops it, and writes its lines.
pub fn replay(mut input: impl Read, output: impl Write) -> io::Result<()> {
    let mut station = Station::default();
    let mut lines = Lines { output, buffer: Box::new([0; OUTPUT]), length: 0 };
    let mut buffer = Box::new([0; INPUT]);
    let mut filled = 0;
    loop {
        // Whole records, as long as the longest would still be whole.
        let mut rest = &buffer[..filled];
        while let Some(record) = rest.first_chunk() {
            let line = lines.room()?;
            let Some((taken, written)) = work(&mut station, record, line) else {
                lines.length += line::unlisted(line);
                return finish(lines);
            };
            lines.length += written;
            rest = &rest[taken..];
        }
        let left = rest.len();
        buffer.copy_within(filled - left..filled, 0);
        filled = left;
        match input.read(&mut buffer[filled..]) {
            Ok(0) => break,
            Ok(more) => filled += more,
            Err(error) if error.kind() == ErrorKind::Interrupted => {}
            Err(error) => return Err(error),
        }
    }
    // The input is at its end, and fewer bytes are left than the longest record has.
    let mut rest = &buffer[..filled];
    while let Some(&map) = rest.first() {
        let line = lines.room()?;
        match length(map) {
            None => {
                lines.length += line::unlisted(line);
                break;
            }
            Some(length) if length > rest.len() => {
                lines.length += line::cut(line);
                break;
            }
            Some(_) => {}
        }
        let mut record = [0; RECORD];
        record[..rest.len()].copy_from_slice(rest);
        let (taken, written) = work(&mut station, &record, line).expect("the map is listed");
        lines.length += written;
        rest = &rest[taken..];
    }
    finish(lines)
}

fn finish<W: Write>(mut lines: Lines<W>) -> io::Result<()> {
    lines.flush()?;
    lines.output.flush()
}

#[cfg(test)]
mod tests {
    use super::*;

    fn answers(trace: &[u8]) -> String {
        let mut output = Vec::new();
        replay(trace, &mut output).unwrap();
        String::from_utf8(output).unwrap()
    }

    const SAMPLE: &[u8] = b"\x03\x01\x01\x00\x08\x11\x01\x01\x81\x11\x01\x01\x01\x03\x01\x01\x00\x08\
        \x08\x00\x00\x08\x00\x00\x08\x01\x00\x21\x01\x03\x00\x00\x05\x03\x01\x03\x00\x4d\x08\x00\x01\x02";

    const LINES: &str = "R 8000\nV\nV\nR 8800\nT 00000800\nT 00000000\nT 00000800\nV\nR 0000\nT 00000005\nX 30\n";

    /// The example of docs/TRACE.md.
    #[test]
    fn sample() {
        assert_eq!(answers(SAMPLE), LINES);
    }

    /// An input that comes a byte at a time is answered as one that comes whole.
    #[test]
    fn sample_by_bytes() {
        struct Bytes<'a>(&'a [u8]);
        impl Read for Bytes<'_> {
            fn read(&mut self, buffer: &mut [u8]) -> io::Result<usize> {
                let length = buffer.len().min(1);
                self.0.read(&mut buffer[..length])
            }
        }
        let mut output = Vec::new();
        replay(Bytes(SAMPLE), &mut output).unwrap();
        assert_eq!(output, LINES.as_bytes());
    }

    #[test]
    fn ends() {
        assert_eq!(answers(b""), "");
        assert_eq!(answers(b"\x02"), "X 30\n");
        assert_eq!(answers(b"\x02\x01\x01\x00\x08\x00\x00\x00"), "X 30\n");
        assert_eq!(answers(b"\x41\x01\x01"), "V\n");
        assert_eq!(answers(b"\x41\x01\x01\xff\x41\x01\x01"), "V\nX 30\n");
        for map in 0..=u8::MAX {
            let record = [map, 0, 0, 0, 0, 0, 0];
            for given in 1..=RECORD {
                let expected = match length(map) {
                    None => "X 30\n",
                    Some(length) if given < length => "X 31\n",
                    Some(_) => continue,
                };
                assert_eq!(answers(&record[..given]), expected);
            }
        }
    }
}
