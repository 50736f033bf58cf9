// Made by tools/to_rust.py of crates/ixdtf_explanations/src/hexadecimal.rt. Do not edit.

//! The hexadecimal digits of a byte and of a character, as a message shows them.

/// Returns the value of a byte as two hexadecimal digits, such as `E9`.
pub fn byte_digits(byte: u8) -> [u8; 2] {
    let number = u32::from(byte);
    [last_digit(number / 16), last_digit(number)]
}

/// Returns the code point of a character as four to six hexadecimal digits, such as `202F`. The function writes six digits into
/// `room`. It returns the last four, five or six of them, so that at most four digits can begin with a 0.
pub fn character_digits(character: char, room: &mut [u8; 6]) -> &[u8] {
    let number = u32::from(character);
    *room = [
        last_digit(number / 0x10_0000),
        last_digit(number / 0x1_0000),
        last_digit(number / 0x1000),
        last_digit(number / 0x100),
        last_digit(number / 0x10),
        last_digit(number),
    ];
    match number {
        0..0x1_0000 => &room[2..],
        0x1_0000..0x10_0000 => &room[1..],
        _ => &room[..],
    }
}

/// Returns the last hexadecimal digit of a number. The digit is in upper case.
fn last_digit(number: u32) -> u8 {
    let digit = (number % 16) as u8;
    if digit < 10 {
        b'0' + digit
    } else {
        b'A' + (digit - 10)
    }
}
