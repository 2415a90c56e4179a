//! Output in pieces of 64 KiB, with numbers printed eight digits at once.

use crate::text::device_fault;
use std::io::{Stdout, Write};

const PIECE: usize = 64 * 1024;

/// Longer than any line that is printed.
const LINE_ROOM: usize = 2 * 1024;

pub struct Output {
    stdout: Stdout,
    buffer: Vec<u8>,
    length: usize,
}

impl Output {
    pub fn new() -> Output {
        Output { stdout: std::io::stdout(), buffer: vec![0; PIECE + LINE_ROOM], length: 0 }
    }

    pub fn text(&mut self, text: &str) {
        self.buffer[self.length..self.length + text.len()].copy_from_slice(text.as_bytes());
        self.length += text.len();
    }

    /// A blank and a number.
    #[inline(always)]
    pub fn number(&mut self, value: i64) {
        self.byte(b' ');
        if value < 0 {
            self.byte(b'-');
        }
        let size = value.unsigned_abs();
        if size < EIGHT {
            return self.digits(size);
        }
        let (high, low) = (size / EIGHT, size % EIGHT);
        if high < EIGHT {
            self.digits(high);
        } else {
            self.digits(high / EIGHT);
            self.eight_digits(high % EIGHT);
        }
        self.eight_digits(low);
    }

    #[inline(always)]
    pub fn end_line(&mut self) {
        self.byte(b'\n');
        if self.length >= PIECE {
            self.flush();
        }
    }

    pub fn flush(&mut self) {
        let put = self.stdout.write_all(&self.buffer[..self.length]).and_then(|_| self.stdout.flush());
        if put.is_err() {
            device_fault();
        }
        self.length = 0;
    }

    #[inline(always)]
    fn byte(&mut self, byte: u8) {
        self.buffer[self.length] = byte;
        self.length += 1;
    }

    /// A number below 10^8, without leading zeros.
    #[inline(always)]
    fn digits(&mut self, value: u64) {
        let spread = spread_digits(value);
        let leading_zeros = (spread.trailing_zeros() & !7).min(56);
        self.put((spread | ASCII_ZEROS) >> leading_zeros, 8 - leading_zeros as usize / 8);
    }

    /// A number below 10^8, with leading zeros.
    #[inline(always)]
    fn eight_digits(&mut self, value: u64) {
        self.put(spread_digits(value) | ASCII_ZEROS, 8);
    }

    #[inline(always)]
    fn put(&mut self, word: u64, count: usize) {
        self.buffer[self.length..self.length + 8].copy_from_slice(&word.to_le_bytes());
        self.length += count;
    }
}

const EIGHT: u64 = 100_000_000;

const ASCII_ZEROS: u64 = 0x3030303030303030;

/// The eight digits of a number below 10^8, one in each byte, the highest in the lowest byte: halves, quarters, digits.
#[inline(always)]
fn spread_digits(value: u64) -> u64 {
    let halves = (value / 10000) | ((value % 10000) << 32);
    let hundreds = ((halves * 10486) >> 20) & 0x0000007f0000007f;
    let quarters = hundreds | ((halves - hundreds * 100) << 16);
    let tens = ((quarters * 103) >> 10) & 0x000f000f000f000f;
    tens | ((quarters - tens * 10) << 8)
}
