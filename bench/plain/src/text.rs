//! Numbers as text.

use std::io::Write;

/// The longest number has 19 digits and a sign.
const LONGEST: usize = 20;

/// The digits of the numbers from 0 to 99, two of each.
const PAIRS: [[u8; 2]; 100] = {
    let mut pairs = [[0; 2]; 100];
    let mut number = 0;
    while number < 100 {
        pairs[number] = [b'0' + number as u8 / 10, b'0' + number as u8 % 10];
        number += 1;
    }
    pairs
};

/// Writes a number.
#[inline]
pub fn write_number(out: &mut Vec<u8>, number: i64) {
    if (0..10).contains(&number) {
        return out.push(b'0' + number as u8);
    }
    let mut digits = [0; LONGEST];
    let mut at = LONGEST;
    let mut left = number.unsigned_abs();
    while left >= 10 {
        at -= 2;
        digits[at..at + 2].copy_from_slice(&PAIRS[(left % 100) as usize]);
        left /= 100;
    }
    if left > 0 {
        at -= 1;
        digits[at] = b'0' + left as u8;
    }
    if number < 0 {
        at -= 1;
        digits[at] = b'-';
    }
    out.extend_from_slice(&digits[at..]);
}

/// Writes a number that may be larger.
pub fn write_wide_number(out: &mut Vec<u8>, number: i128) {
    match i64::try_from(number) {
        Ok(number) => write_number(out, number),
        Err(_) => write!(out, "{number}").expect("a vector takes all bytes"),
    }
}
