//! Which character a letter's byte is: by the code table and the country in
//! force.

use crate::style::{ITALIC, ITALIC_TABLE, PROPORTIONAL};

/// The graphics table from 80h on.
#[rustfmt::skip]
const GRAPHICS: [char; 128] = [
    'Ç', 'ü', 'é', 'â', 'ä', 'à', 'å', 'ç', 'ê', 'ë', 'è', 'ï', 'î', 'ì', 'Ä', 'Å',
    'É', 'æ', 'Æ', 'ô', 'ö', 'ò', 'û', 'ù', 'ÿ', 'Ö', 'Ü', '¢', '£', '¥', '₧', 'ƒ',
    'á', 'í', 'ó', 'ú', 'ñ', 'Ñ', 'ª', 'º', '¿', '⌐', '¬', '½', '¼', '¡', '«', '»',
    '░', '▒', '▓', '│', '┤', '╡', '╢', '╖', '╕', '╣', '║', '╗', '╝', '╜', '╛', '┐',
    '└', '┴', '┬', '├', '─', '┼', '╞', '╟', '╚', '╔', '╩', '╦', '╠', '═', '╬', '╧',
    '╨', '╤', '╥', '╙', '╘', '╒', '╓', '╫', '╪', '┘', '┌', '█', '▄', '▌', '▐', '▀',
    'α', 'ß', 'Γ', 'π', 'Σ', 'σ', 'µ', 'τ', 'Φ', 'Θ', 'Ω', 'δ', '∞', 'φ', 'ε', '∩',
    '≡', '±', '≥', '≤', '⌠', '⌡', '÷', '≈', '°', '∙', '·', '√', 'ⁿ', '²', '■', '\u{a0}',
];

/// The bytes that a country changes.
const CHANGED: [u8; 12] = *b"#$@[\\]^`{|}~";

/// A country's characters in their places, by the ESC R number.
#[rustfmt::skip]
const COUNTRIES: [(u8, [char; 12]); 14] = [
    (1, ['#', '$', 'à', '°', 'ç', '§', '^', '`', 'é', 'ù', 'è', '¨']),
    (2, ['#', '$', '§', 'Ä', 'Ö', 'Ü', '^', '`', 'ä', 'ö', 'ü', 'ß']),
    (3, ['£', '$', '@', '[', '\\', ']', '^', '`', '{', '|', '}', '~']),
    (4, ['#', '$', '@', 'Æ', 'Ø', 'Å', '^', '`', 'æ', 'ø', 'å', '~']),
    (5, ['#', '¤', 'É', 'Ä', 'Ö', 'Å', 'Ü', 'é', 'ä', 'ö', 'å', 'ü']),
    (6, ['#', '$', '@', '°', '\\', 'é', '^', 'ù', 'à', 'ò', 'è', 'ì']),
    (7, ['₧', '$', '@', '¡', 'Ñ', '¿', '^', '`', '¨', 'ñ', '}', '~']),
    (8, ['#', '$', '@', '[', '¥', ']', '^', '`', '{', '|', '}', '~']),
    (9, ['#', '¤', 'É', 'Æ', 'Ø', 'Å', 'Ü', 'é', 'æ', 'ø', 'å', 'ü']),
    (10, ['#', '$', 'É', 'Æ', 'Ø', 'Å', 'Ü', 'é', 'æ', 'ø', 'å', 'ü']),
    (11, ['#', '$', 'á', '¡', 'Ñ', '¿', 'é', '`', 'í', 'ñ', 'ó', 'ú']),
    (12, ['#', '$', 'á', '¡', 'Ñ', '¿', 'é', 'ü', 'í', 'ñ', 'ó', 'ú']),
    (13, ['#', '$', '@', '[', '₩', ']', '^', '`', '{', '|', '}', '~']),
    (64, ['#', '$', '§', '°', '\'', '"', '¶', '`', '©', '®', '†', '™']),
];

/// The countries whose ø of 7Ch is a space where letters are proportional.
const WITHOUT_O: [u8; 3] = [4, 9, 10];

/// The character of a letter's byte, with the style and the country of its
/// record ([`Record::Tx`](crate::Record::Tx)), at so many dots to the inch, as
/// the code tables of document 000, appendix A, have it; and the style that it
/// shows: in the italic code table the upper half is the lower one in italics.
/// A byte that has no character is a no-break space, and so is one of the
/// graphics table's last place. What was downloaded is not known: it is shown
/// by the code table.
///
/// ```
/// use ierbulosc::{character, style};
///
/// assert_eq!(character(b'[', 0, 0, 300), ('[', 0));
/// assert_eq!(character(b'[', 0, 2, 300), ('Ä', 0));
/// assert_eq!(character(0x81, 0, 0, 300), ('ü', 0));
/// let table = style::ITALIC_TABLE;
/// assert_eq!(character(0xC1, table, 0, 300), ('A', table | style::ITALIC));
/// ```
pub fn character(byte: u8, style: u16, country: u8, dots: u32) -> (char, u16) {
    let upper = |byte: u8| GRAPHICS[usize::from(byte - 0x80)];
    match byte {
        0x20..=0x7E => (national(byte, style, country), style),
        0xA0..=0xFE if style & ITALIC_TABLE != 0 => {
            (national(byte - 0x80, style, country), style | ITALIC)
        }
        0x80.. if style & ITALIC_TABLE != 0 => ('\u{a0}', style),
        // At 300 dots these two have changed places.
        0xF2 | 0xF3 if dots == 300 => (upper(byte ^ 1), style),
        0x80.. => (upper(byte), style),
        _ => ('\u{a0}', style),
    }
}

/// The character of a byte from 20h to 7Eh in a country.
fn national(byte: u8, style: u16, country: u8) -> char {
    if country == 0 {
        return char::from(byte);
    }
    if byte == b'|' && style & PROPORTIONAL != 0 && WITHOUT_O.contains(&country) {
        return ' ';
    }
    let place = CHANGED.iter().position(|&changed| changed == byte);
    let row = COUNTRIES.iter().find(|row| row.0 == country);
    match (place, row) {
        (Some(place), Some((_, row))) => row[place],
        _ => char::from(byte),
    }
}

#[cfg(test)]
mod tests {
    use super::*;

    #[test]
    fn by_table_and_country() {
        let at_203 = |byte, style, country| character(byte, style, country, 203);
        assert_eq!(at_203(b'A', 0, 2), ('A', 0));
        assert_eq!(at_203(b'[', 0, 0), ('[', 0));
        assert_eq!(at_203(b'[', 0, 2), ('Ä', 0));
        assert_eq!(at_203(b'~', 0, 64), ('™', 0));
        assert_eq!(at_203(0x80, 0, 0), ('Ç', 0));
        assert_eq!(at_203(0xB3, 0, 0), ('│', 0));
        assert_eq!(at_203(0xDB, 0, 0), ('█', 0));
        assert_eq!(at_203(0xFD, 0, 0), ('²', 0));
        let table = ITALIC_TABLE;
        assert_eq!(at_203(0xC1, table, 0), ('A', table | ITALIC));
        assert_eq!(at_203(0xDB, table, 2), ('Ä', table | ITALIC));
        assert_eq!(at_203(0x85, table, 0), ('\u{a0}', table));
    }

    /// What the tables say in their precautions.
    #[test]
    fn by_dots_and_pitch() {
        assert_eq!(character(0xF2, 0, 0, 203), ('≥', 0));
        assert_eq!(character(0xF3, 0, 0, 203), ('≤', 0));
        assert_eq!(character(0xF2, 0, 0, 300), ('≤', 0));
        assert_eq!(character(0xF3, 0, 0, 300), ('≥', 0));
        assert_eq!(character(b'|', 0, 4, 300).0, 'ø');
        assert_eq!(character(b'|', PROPORTIONAL, 4, 300).0, ' ');
        assert_eq!(character(b'|', PROPORTIONAL, 2, 300).0, 'ö');
    }
}
