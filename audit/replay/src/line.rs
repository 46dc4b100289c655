//! Lines of answers (docs/TRACE.md).

/// The longest line with its line feed.
pub const LONGEST: usize = 11;

/// The digits of `number`, the highest first.
#[inline]
fn hex(number: u32) -> [u8; 8] {
    // One digit to a byte.
    let mut digits = u64::from(number);
    digits = (digits << 16 | digits) & 0x0000_ffff_0000_ffff;
    digits = (digits << 8 | digits) & 0x00ff_00ff_00ff_00ff;
    digits = (digits << 4 | digits) & 0x0f0f_0f0f_0f0f_0f0f;
    // A one in each byte above 9; the letters begin 39 behind the digits.
    let letters = (digits + 0x0606_0606_0606_0606) >> 4 & 0x0101_0101_0101_0101;
    (digits + 0x3030_3030_3030_3030 + letters * 39).to_be_bytes()
}

#[inline]
pub fn data(line: &mut [u8; LONGEST], word: u16) -> usize {
    let [_, _, _, _, a, b, c, d] = hex(u32::from(word));
    line[..7].copy_from_slice(&[b'R', b' ', a, b, c, d, b'\n']);
    7
}

#[inline]
pub fn told(line: &mut [u8; LONGEST], word: u32) -> usize {
    line[..2].copy_from_slice(b"T ");
    line[2..10].copy_from_slice(&hex(word));
    line[10] = b'\n';
    11
}

#[inline]
pub fn done(line: &mut [u8; LONGEST]) -> usize {
    line[..2].copy_from_slice(b"V\n");
    2
}

#[inline]
pub fn refused(line: &mut [u8; LONGEST], number: u8) -> usize {
    line[..5].copy_from_slice(&[b'E', b' ', b'0' + number / 10, b'0' + number % 10, b'\n']);
    5
}

pub fn unlisted(line: &mut [u8; LONGEST]) -> usize {
    line[..5].copy_from_slice(b"X 30\n");
    5
}

pub fn cut(line: &mut [u8; LONGEST]) -> usize {
    line[..5].copy_from_slice(b"X 31\n");
    5
}

#[cfg(test)]
mod tests {
    use super::*;

    #[test]
    fn hex_digits() {
        let mut line = [0; LONGEST];
        for word in (0..=u32::MAX).step_by(65521).chain([u32::MAX, 0x0123_4567, 0x89ab_cdef, 0x9a9a_0f0f]) {
            assert_eq!(told(&mut line, word), 11);
            assert_eq!(line[..], *format!("T {word:08x}\n").as_bytes());
        }
        for word in 0..=u16::MAX {
            assert_eq!(data(&mut line, word), 7);
            assert_eq!(line[..7], *format!("R {word:04x}\n").as_bytes());
        }
    }
}
