//! The shortest list of letters that can be found on which a card still fails.

use super::Card;
use ierbulosc::{card_room, LETTER_SIZE};

/// A card with a list that is no longer than this one's, and that fails too.
pub fn shortest(card: &Card, fails: &dyn Fn(&Card) -> bool) -> Card {
    let mut best = card.clone();
    loop {
        let next = smaller(&best)
            .into_iter()
            .find(|candidate| fails(candidate));
        match next {
            Some(candidate) => best = candidate,
            None => return best,
        }
    }
}

/// Cards that are smaller by one thing: letters dropped, the rest past the last
/// one dropped, just the room asked for, read in one piece.
fn smaller(card: &Card) -> Vec<Card> {
    let count = card.letters.len() / LETTER_SIZE;
    let mut all = Vec::new();
    let mut run = count;
    while run > 0 {
        for at in (0..=count - run).step_by(run) {
            let mut letters = card.letters.clone();
            letters.drain(at * LETTER_SIZE..(at + run) * LETTER_SIZE);
            // as far from the room asked for as before
            let room = (card.room + card_room(count - run)).saturating_sub(card_room(count));
            all.push(Card {
                letters,
                room,
                ..*card
            });
        }
        run /= 2;
    }
    let with = |letters: &[u8], room, piece| Card {
        letters: letters.to_vec(),
        room,
        piece,
    };
    let whole = &card.letters[..count * LETTER_SIZE];
    all.push(with(whole, card.room, card.piece));
    all.push(with(&card.letters, card_room(count), card.piece));
    all.push(with(&card.letters, card.room, 1_000_000));
    all.retain(|candidate| candidate != card);
    all
}
