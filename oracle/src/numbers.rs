//! Whole numbers and their 64-bit and 32-bit forms.

/// 2^n as a whole number.
pub fn power(n: u32) -> u128 {
    1u128 << n
}

/// A whole number reduced modulo 2^64.
pub fn wrap(value: i128) -> u64 {
    value.rem_euclid(power(64) as i128) as u64
}

/// The two's complement reading of the low `width` bits.
pub fn signed(value: u64, width: u32) -> i128 {
    let size = power(width) as i128;
    let low = value as i128 % size;
    if low >= size / 2 {
        low - size
    } else {
        low
    }
}

/// The low 32 bits, sign extended to 64.
pub fn word_extended(value: u64) -> u64 {
    wrap(signed(value, 32))
}

/// Sum modulo 2^64.
pub fn add(a: u64, b: u64) -> u64 {
    wrap(a as i128 + b as i128)
}

/// Bits `low` to `high` of a word, both included, as a number.
pub fn bits(word: u32, high: u32, low: u32) -> u64 {
    (word as u64 >> low) & ((1 << (high - low + 1)) - 1)
}

/// Bit `place` of a number.
pub fn bit(value: u64, place: u32) -> bool {
    value >> place & 1 == 1
}
