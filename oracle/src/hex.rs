//! Capital hexadecimal digits.

const BAD: u8 = 0xFF;

static VALUES: [u8; 256] = {
    let mut table = [BAD; 256];
    let mut digit = 0;
    while digit < 16 {
        table[b"0123456789ABCDEF"[digit] as usize] = digit as u8;
        digit += 1;
    }
    table
};

/// The number that all these digits make; at most 8 of them.
pub fn number(digits: &[u8]) -> Option<u32> {
    let mut value = 0;
    let mut seen = 0;
    for digit in digits {
        let digit = VALUES[*digit as usize];
        seen |= digit;
        value = value << 4 | (digit & 15) as u32;
    }
    (seen != BAD).then_some(value)
}

/// Appends the bytes that these digits make, two each.
pub fn bytes(digits: &[u8], out: &mut Vec<u8>) -> Option<()> {
    if digits.len() % 2 == 1 {
        return None;
    }
    for pair in digits.chunks_exact(2) {
        out.push(number(pair)? as u8);
    }
    Some(())
}

pub fn put(value: u32, digits: u32, out: &mut Vec<u8>) {
    for place in (0..digits).rev() {
        out.push(b"0123456789ABCDEF"[(value >> (4 * place) & 15) as usize]);
    }
}
