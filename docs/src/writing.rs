//! Writing a card: letters with places in units, as ESC/P that puts them
//! there.

/// The card is written.
pub const WRITTEN: u8 = 0;
/// The length of the list is no multiple of [`LETTER_SIZE`].
pub const LETTERS_REFUSED: u8 = 5;
/// A letter's byte is none that is written.
pub const BYTE_REFUSED: u8 = 8;
/// A letter's place breaks a rule.
pub const PLACE_REFUSED: u8 = 9;
/// The room is less than 2 bytes, and 33 for each letter.
pub const ROOM_REFUSED: u8 = 10;

/// The bytes of a letter in a list: the byte, across (2), down (2).
pub const LETTER_SIZE: usize = 5;

/// The place of the last letter that fits, across and down.
const LAST_ACROSS: u16 = 28_800 - 360;
const LAST_DOWN: u16 = 39_580;

const ESC: u8 = 0x1B;

/// The answer's number, and the bytes written; none if it is refused.
pub fn write(letters: &[u8], room: usize) -> (u8, Vec<u8>) {
    if letters.len() % LETTER_SIZE != 0 {
        return (LETTERS_REFUSED, Vec::new());
    }
    let mut card = vec![ESC, b'@'];
    let mut last_down = 0;
    for letter in letters.chunks_exact(LETTER_SIZE) {
        let byte = letter[0];
        let across = u16::from_le_bytes([letter[1], letter[2]]);
        let down = u16::from_le_bytes([letter[3], letter[4]]);
        if !(b' '..=b'~').contains(&byte) {
            return (BYTE_REFUSED, Vec::new());
        }
        let reached =
            (0..=LAST_ACROSS).contains(&across) && (last_down..=LAST_DOWN).contains(&down);
        if !reached || across % 20 != 0 || down % 20 != 0 {
            return (PLACE_REFUSED, Vec::new());
        }
        feed(&mut card, down - last_down);
        place(&mut card, across);
        card.push(byte);
        last_down = down;
    }
    if room < 2 + 33 * (letters.len() / LETTER_SIZE) {
        return (ROOM_REFUSED, Vec::new());
    }
    (WRITTEN, card)
}

/// ESC J, at most 255 steps of 20 units at a time.
fn feed(card: &mut Vec<u8>, units: u16) {
    let mut steps = units / 20;
    while steps > 0 {
        let now = steps.min(255);
        card.extend([ESC, b'J', now as u8]);
        steps -= now;
    }
}

/// ESC $ in steps of 60 units, and ESC \ in steps of 20 for what is left.
fn place(card: &mut Vec<u8>, across: u16) {
    let [low, high] = (across / 60).to_le_bytes();
    card.extend([ESC, b'$', low, high]);
    match across % 60 {
        0 => {}
        rest => card.extend([ESC, b'\\', (rest / 20) as u8, 0]),
    }
}
