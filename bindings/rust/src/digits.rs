//! Digits, for the tools: the numbers of a sheet that the proved reader has taken, of a line of floors, and of what the proved code has written.

/// The value of a byte as a digit: its place among the sixteen.
pub(crate) fn digit_value(byte: u8) -> Option<u8> {
    b"0123456789abcdef".iter().zip(0..).find_map(|(&digit, value)| (digit == byte).then_some(value))
}

/// The number in at most 16 digits, if each byte is one.
pub(crate) fn number(digits: &[u8]) -> Option<u64> {
    digits.iter().try_fold(0, |x, &byte| Some(16 * x + u64::from(digit_value(byte)?)))
}
