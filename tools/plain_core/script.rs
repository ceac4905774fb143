//! The lines of a script.

/// The most bytes of a line.
const LINE: usize = 1_024;
/// The most bytes of a command, and of a block.
const COMMAND: usize = 261;
const BLOCK: usize = 300;

/// What a line asks for. The bytes of a command or a block go into a buffer.
pub enum Order {
    Nothing,
    On,
    Off,
    Free,
    Command,
    Block,
    Cut(u32, u16),
    Lose(u32),
    Garble(u32),
}

impl Order {
    /// What a line asks for, if it is good.
    pub fn parse(line: &[u8], bytes: &mut Vec<u8>) -> Option<Order> {
        if line.len() > LINE {
            return None;
        }
        if line.is_empty() || line[0] == b'#' {
            return Some(Order::Nothing);
        }
        if let Some(digits) = line.strip_prefix(b"apdu ") {
            return decode(digits, COMMAND, bytes).map(|()| Order::Command);
        }
        if let Some(digits) = line.strip_prefix(b"block ") {
            return decode(digits, BLOCK, bytes).map(|()| Order::Block);
        }
        match line {
            b"on" => Some(Order::On),
            b"off" => Some(Order::Off),
            b"free" => Some(Order::Free),
            _ => Order::parse_fault(line, bytes),
        }
    }

    /// A line that sets a cut, a loss or a garbling to come.
    fn parse_fault(line: &[u8], bytes: &mut Vec<u8>) -> Option<Order> {
        if let Some(number) = line.strip_prefix(b"lose ") {
            return parse_number(number).map(Order::Lose);
        }
        if let Some(number) = line.strip_prefix(b"garble ") {
            return parse_number(number).map(Order::Garble);
        }
        let [number @ .., b' ', a, b, c, d] = line.strip_prefix(b"cut ")? else { return None };
        decode(&[*a, *b, *c, *d], 2, bytes)?;
        Some(Order::Cut(parse_number(number)?, u16::from_be_bytes([bytes[0], bytes[1]])))
    }
}

/// The bytes that pairs of hexadecimal digits spell, at least one and at most so many.
fn decode(digits: &[u8], most: usize, bytes: &mut Vec<u8>) -> Option<()> {
    let pairs = digits.chunks_exact(2);
    if digits.is_empty() || digits.len() > 2 * most || !pairs.remainder().is_empty() {
        return None;
    }
    bytes.clear();
    let mut all = 0;
    bytes.extend(pairs.map(|pair| {
        let (high, low) = (VALUES[usize::from(pair[0])], VALUES[usize::from(pair[1])]);
        all |= high | low;
        high << 4 | low & 15
    }));
    (all < 16).then_some(())
}

/// The value of each byte as a hexadecimal digit, and 255 of those that are none.
const VALUES: [u8; 256] = [
    255, 255, 255, 255, 255, 255, 255, 255, 255, 255, 255, 255, 255, 255, 255, 255,
    255, 255, 255, 255, 255, 255, 255, 255, 255, 255, 255, 255, 255, 255, 255, 255,
    255, 255, 255, 255, 255, 255, 255, 255, 255, 255, 255, 255, 255, 255, 255, 255,
    0, 1, 2, 3, 4, 5, 6, 7, 8, 9, 255, 255, 255, 255, 255, 255,
    255, 10, 11, 12, 13, 14, 15, 255, 255, 255, 255, 255, 255, 255, 255, 255,
    255, 255, 255, 255, 255, 255, 255, 255, 255, 255, 255, 255, 255, 255, 255, 255,
    255, 10, 11, 12, 13, 14, 15, 255, 255, 255, 255, 255, 255, 255, 255, 255,
    255, 255, 255, 255, 255, 255, 255, 255, 255, 255, 255, 255, 255, 255, 255, 255,
    255, 255, 255, 255, 255, 255, 255, 255, 255, 255, 255, 255, 255, 255, 255, 255,
    255, 255, 255, 255, 255, 255, 255, 255, 255, 255, 255, 255, 255, 255, 255, 255,
    255, 255, 255, 255, 255, 255, 255, 255, 255, 255, 255, 255, 255, 255, 255, 255,
    255, 255, 255, 255, 255, 255, 255, 255, 255, 255, 255, 255, 255, 255, 255, 255,
    255, 255, 255, 255, 255, 255, 255, 255, 255, 255, 255, 255, 255, 255, 255, 255,
    255, 255, 255, 255, 255, 255, 255, 255, 255, 255, 255, 255, 255, 255, 255, 255,
    255, 255, 255, 255, 255, 255, 255, 255, 255, 255, 255, 255, 255, 255, 255, 255,
    255, 255, 255, 255, 255, 255, 255, 255, 255, 255, 255, 255, 255, 255, 255, 255,
];

/// The number that 1 to 6 digits spell, at least 1.
fn parse_number(digits: &[u8]) -> Option<u32> {
    if !matches!(digits.len(), 1..=6) || !digits.iter().all(u8::is_ascii_digit) {
        return None;
    }
    let number = digits.iter().fold(0, |number, digit| 10 * number + u32::from(digit - b'0'));
    (number > 0).then_some(number)
}

/// Spells bytes in pairs of hexadecimal digits.
pub fn encode(bytes: &[u8], text: &mut Vec<u8>) {
    // The few bytes of most answers one by one; of many, several are spelled at once.
    if bytes.len() < 16 {
        return text.extend(bytes.iter().flat_map(|byte| {
            let digit = |value: u8| b"0123456789ABCDEF"[usize::from(value)];
            [digit(byte >> 4), digit(byte & 15)]
        }));
    }
    let digit = |value: u8| value + b'0' + if value > 9 { 7 } else { 0 };
    let from = text.len();
    text.resize(from + 2 * bytes.len(), 0);
    for (pair, byte) in text[from..].chunks_exact_mut(2).zip(bytes) {
        pair.copy_from_slice(&[digit(byte >> 4), digit(byte & 15)]);
    }
}

extern "C" {
    fn memchr(bytes: *const u8, byte: i32, count: usize) -> *const u8;
}

/// The first place of a byte, by the search of the C library, as the crate `memchr` finds it.
pub fn find_byte(bytes: &[u8], byte: u8) -> Option<usize> {
    // SAFETY: the pointer and the count are those of one slice, and what is found lies in it.
    let found = unsafe { memchr(bytes.as_ptr(), i32::from(byte), bytes.len()) };
    (!found.is_null()).then(|| found as usize - bytes.as_ptr() as usize)
}
