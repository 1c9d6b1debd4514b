//! Sixteen bytes of a sheet, which are asked eight at once, as a number whose lowest byte comes first.

/// Zeros stand for bytes past the end of the sheet; no field has one.
pub type Window = [u8; 16];

/// The number with this byte in all eight places.
const fn each(byte: u8) -> u64 {
    u64::from_le_bytes([byte; 8])
}

/// The first eight bytes, and the others.
pub fn halves(window: &Window) -> [u64; 2] {
    let (halves, _) = window.as_chunks();
    [u64::from_le_bytes(halves[0]), u64::from_le_bytes(halves[1])]
}

/// A numeral and the byte behind it: its number, and how many bytes they are.
#[inline(always)]
pub fn field(window: &Window, behind: u8) -> Option<(u32, usize)> {
    if window[1] == behind && window[0].is_ascii_digit() {
        return Some((u32::from(window[0] - b'0'), 2));
    }
    // What is left begins with another digit than 0.
    if !matches!(window[0], b'1'..=b'9') {
        return None;
    }
    let first = halves(window)[0];
    let others = no_digits(first);
    let (value, length) = match others {
        0 => eight_or_more(window, value(first, 8)),
        _ => {
            let count = others.trailing_zeros() as usize / 8;
            (value(first, count), count)
        }
    };
    let number = u32::try_from(value).unwrap_or(u32::MAX);
    (window[length] == behind).then_some((number, length + 1))
}

/// The number of a numeral of eight digits or more, ten at most, and how many they are.
fn eight_or_more(window: &Window, first_eight: u64) -> (u64, usize) {
    let (mut value, mut length) = (first_eight, 8);
    while length < 10 && window[length].is_ascii_digit() {
        value = value * 10 + u64::from(window[length] - b'0');
        length += 1;
    }
    (value, length)
}

/// Sets the highest bit of the first of eight bytes that is no digit, and none below it; gives 0 if all are digits.
fn no_digits(bytes: u64) -> u64 {
    let offsets = bytes ^ each(b'0');
    // With 0x76 more the highest bit of an offset of 10 or more is set. What is carried goes to bytes behind it.
    (offsets.wrapping_add(each(0x76)) | offsets) & each(0x80)
}

/// The number that the first `count` of eight bytes spell; at least one.
fn value(bytes: u64, count: usize) -> u64 {
    let digits = (bytes ^ each(b'0')) << (64 - 8 * count);
    // Two neighbours make one number: 1 and 1 digit, then 2 and 2, then 4 and 4.
    let twos = (digits.wrapping_mul((10 << 8) + 1) >> 8) & 0x00FF_00FF_00FF_00FF;
    let fours = (twos.wrapping_mul((100 << 16) + 1) >> 16) & 0x0000_FFFF_0000_FFFF;
    fours.wrapping_mul((10_000 << 32) + 1) >> 32
}

/// Eight bytes up to the first comma and the comma; all of them if there is none.
pub fn up_to_comma(bytes: u64) -> u64 {
    let apart = bytes ^ each(b',');
    // Sets the highest bit of the first byte that is 0, and none below it.
    let comma = apart.wrapping_sub(each(1)) & !apart & each(0x80);
    bytes & (comma ^ comma.wrapping_sub(1))
}
