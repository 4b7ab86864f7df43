//! How texts and numbers are shown.

use dta::{Cell, LongStrings, Type};
use std::io::Write;

/// The bytes with control characters and backslashes written out, so that they move no cursor and end no line. Bytes that are no UTF-8 are written out, too.
pub fn plain(bytes: &[u8]) -> String {
    let mut shown = String::new();
    for chunk in bytes.utf8_chunks() {
        for sign in chunk.valid().chars() {
            match sign {
                '\n' => shown.push_str("\\n"),
                '\r' => shown.push_str("\\r"),
                '\t' => shown.push_str("\\t"),
                '\\' => shown.push_str("\\\\"),
                sign if sign.is_control() => {
                    let mut bytes = [0; 4];
                    hex_signs(&mut shown, sign.encode_utf8(&mut bytes).as_bytes());
                }
                sign => shown.push(sign),
            }
        }
        hex_signs(&mut shown, chunk.invalid());
    }
    shown
}

fn hex_signs(shown: &mut String, bytes: &[u8]) {
    for byte in bytes {
        shown.push_str(&format!("\\x{byte:02x}"));
    }
}

/// Two hexadecimal digits for each byte.
pub fn hex(bytes: &[u8]) -> String {
    let mut digits = String::with_capacity(2 * bytes.len());
    for byte in bytes {
        digits.push_str(&format!("{byte:02x}"));
    }
    digits
}

/// A number that reads back as exactly this double.
pub fn double(number: f64) -> String {
    let size = number.abs();
    if size == 0.0 || (1e-5..1e17).contains(&size) {
        format!("{number}")
    } else {
        format!("{number:e}")
    }
}

/// `.`, or `.a` to `.z`.
pub fn letter(letter: u8) -> String {
    match letter {
        1..=26 => format!(".{}", char::from(b'a' + letter - 1)),
        _ => ".".to_string(),
    }
}

/// A value of a label table: from 2,147,483,621 on they stand for the missing letters.
pub fn label_value(value: i32) -> String {
    match value.checked_sub(2_147_483_621) {
        Some(above) if above >= 0 => letter(above as u8),
        _ => value.to_string(),
    }
}

pub fn type_name(of: Type) -> String {
    match of {
        Type::Text(width) => format!("str{width}"),
        Type::StrL => "strL".to_string(),
        Type::Byte => "byte".to_string(),
        Type::Int => "int".to_string(),
        Type::Long => "long".to_string(),
        Type::Float => "float".to_string(),
        Type::Double => "double".to_string(),
    }
}

/// Puts what a cell says behind `shown`: numbers so that they read back exactly, a float as the double of its value; texts as they are.
pub fn put_cell(shown: &mut Vec<u8>, cell: Cell, longs: Option<&LongStrings>) {
    let put = |shown: &mut Vec<u8>, text: &str| shown.extend_from_slice(text.as_bytes());
    match cell {
        Cell::Whole(number) => write!(shown, "{number}").expect("a vector takes all"),
        Cell::Float(number) => put(shown, &double(f64::from(number))),
        Cell::Double(number) => put(shown, &double(number)),
        Cell::Letter(of) => put(shown, &letter(of)),
        Cell::Between => put(shown, "between"),
        Cell::Outside => put(shown, "outside"),
        Cell::Text(text) => shown.extend_from_slice(text),
        Cell::Reference { v, o } => {
            if let Some(long) = longs.and_then(|longs| longs.get(v, o)) {
                shown.extend_from_slice(long.text());
            }
        }
    }
}

#[cfg(test)]
mod tests {
    use super::*;

    #[test]
    fn plain_texts() {
        assert_eq!(plain(b"Main Road"), "Main Road");
        assert_eq!(plain("Größe".as_bytes()), "Größe");
        assert_eq!(plain(b"a\tb\nc\\d"), "a\\tb\\nc\\\\d");
        assert_eq!(plain(b"\x1b[2J\xff\xc3"), "\\x1b[2J\\xff\\xc3");
        assert_eq!(plain("\u{85}".as_bytes()), "\\xc2\\x85");
    }

    #[test]
    fn doubles_read_back() {
        for (number, shown) in [
            (0.0, "0"),
            (-0.0, "-0"),
            (9.7, "9.7"),
            (1.0 / 3.0, "0.3333333333333333"),
            (1e16, "10000000000000000"),
            (1e17, "1e17"),
            (-8.98846567431158e307, "-8.98846567431158e307"),
            (5e-324, "5e-324"),
            (f64::from(0.1_f32), "0.10000000149011612"),
        ] {
            assert_eq!(double(number), shown);
            assert_eq!(shown.parse::<f64>().unwrap().to_bits(), number.to_bits());
        }
    }

    #[test]
    fn values_of_labels() {
        assert_eq!(label_value(-3), "-3");
        assert_eq!(label_value(2_147_483_620), "2147483620");
        assert_eq!(label_value(2_147_483_621), ".");
        assert_eq!(label_value(2_147_483_622), ".a");
        assert_eq!(label_value(2_147_483_647), ".z");
        assert_eq!(label_value(i32::MIN), "-2147483648");
    }
}
