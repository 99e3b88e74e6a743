//! Numbers as bytes: "32 bits without sign, in groups of seven bits, lowest
//! group first; bit 7 of a byte means that another follows."

use crate::refusal;

/// Most bytes that a number takes.
const MAX_BYTES: usize = 5;

/// Fewest bytes that hold `number`. S-5: "The 33 lengths are to be replaced by
/// their formula, significant bits plus 6, divided by 7 and rounded down, at
/// least 1." Only 0 needs the last words: it has no significant bits, and takes
/// a byte all the same.
#[must_use]
#[allow(clippy::manual_div_ceil)] // the formula stands as the paper words it
pub fn byte_count(number: u32) -> usize {
    // "Significant bits are 32 less the leading zeros."
    let significant_bits = 32 - number.leading_zeros();
    ((significant_bits + 6) / 7).max(1) as usize
}

/// Reads the number at place `at` and gives it with the place behind it.
///
/// # Errors
/// "1 the bytes end inside it or before it; 2 a fifth byte above 0F." A fifth
/// byte that announces a sixth is above 0F too. Then 42 (S-4): "a number of more
/// than one byte whose last byte is 00 is refused".
pub fn read_number(bytes: &[u8], at: usize) -> Result<(u32, usize), u8> {
    let rest = bytes.get(at..).unwrap_or_default();
    let mut number = 0;
    for (i, &byte) in rest.iter().take(MAX_BYTES).enumerate() {
        if i == MAX_BYTES - 1 && byte > 0x0F {
            return Err(refusal::FIFTH_BYTE);
        }
        // Bit 7 of 00 is clear, so it is the last byte.
        if i > 0 && byte == 0x00 {
            return Err(refusal::PADDED_NUMBER);
        }
        number |= u32::from(byte & 0x7F) << (7 * i);
        if byte & 0x80 == 0 {
            return Ok((number, at + i + 1));
        }
    }
    Err(refusal::BYTES_END)
}

/// Writes `number` at the front of `buffer` "in the fewest bytes" and gives
/// their count.
///
/// # Errors
/// 10 when the buffer is too short; it then keeps its contents.
pub fn write_number(number: u32, buffer: &mut [u8]) -> Result<usize, u8> {
    let count = byte_count(number);
    let front = buffer.get_mut(..count).ok_or(refusal::TOO_SHORT)?;
    let mut rest = number;
    for byte in front.iter_mut() {
        *byte = (rest & 0x7F) as u8 | 0x80;
        rest >>= 7;
    }
    front[count - 1] &= 0x7F;
    Ok(count)
}

/// Writes `numbers` one behind the other, all of them or none.
///
/// # Errors
/// 10 when the buffer is too short for all; it then keeps its contents.
pub fn write_numbers(numbers: &[u32], buffer: &mut [u8]) -> Result<usize, u8> {
    let total = numbers.iter().map(|&number| byte_count(number)).sum();
    if buffer.len() < total {
        return Err(refusal::TOO_SHORT);
    }
    let mut at = 0;
    for &number in numbers {
        at += write_number(number, &mut buffer[at..])?;
    }
    Ok(at)
}

/// A place in lent bytes from which numbers are read one by one.
#[derive(Clone, Copy, Debug)]
pub struct NumberReader<'a> {
    /// The lent bytes.
    pub bytes: &'a [u8],
    /// The place of the next number.
    pub at: usize,
}

impl<'a> NumberReader<'a> {
    /// A reader of `bytes` that stands at place `at`.
    #[must_use]
    pub fn new(bytes: &'a [u8], at: usize) -> Self {
        Self { bytes, at }
    }

    /// Reads the next number and steps behind it.
    ///
    /// # Errors
    /// 1, 2 or 42 as [`read_number`]; the place then stays.
    pub fn number(&mut self) -> Result<u32, u8> {
        let (number, next) = read_number(self.bytes, self.at)?;
        self.at = next;
        Ok(number)
    }

    /// "A place past the end counts as the end."
    #[must_use]
    pub fn at_end(&self) -> bool {
        self.at >= self.bytes.len()
    }
}
