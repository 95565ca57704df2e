//! The shortest list that can be found on which a question still fails.

use super::Question;
use crate::record::RECORD_SIZE;

const TRIES: usize = 20_000;

struct Search<'a> {
    best: Question,
    fails: &'a dyn Fn(&Question) -> bool,
    tries: usize,
}

/// A question about a list that is no longer than this one, and that fails
/// too.
pub fn shortest(question: &Question, fails: &dyn Fn(&Question) -> bool) -> Question {
    let mut search = Search {
        best: question.clone(),
        fails,
        tries: TRIES,
    };
    loop {
        let before = search.best.clone();
        search.drop_bytes_past_a_record();
        search.drop_records();
        search.plain_range();
        search.plain_bytes();
        if search.best == before || search.tries == 0 {
            return search.best;
        }
    }
}

impl Search<'_> {
    /// Takes the candidate if it still fails.
    fn attempt(&mut self, candidate: Question) -> bool {
        if self.tries == 0 || candidate == self.best {
            return false;
        }
        self.tries -= 1;
        let taken = (self.fails)(&candidate);
        if taken {
            self.best = candidate;
        }
        taken
    }

    /// Drops what is no whole record, or all of it but one byte.
    fn drop_bytes_past_a_record(&mut self) {
        let whole = self.best.records.len() / RECORD_SIZE * RECORD_SIZE;
        for length in [whole, whole + 1] {
            let mut candidate = self.best.clone();
            candidate.records.truncate(length);
            self.attempt(candidate);
        }
    }

    /// Drops runs of records: long runs first, then single ones.
    fn drop_records(&mut self) {
        let mut run = self.best.records.len() / RECORD_SIZE;
        while run > 0 {
            let mut at = 0;
            while (at + run) * RECORD_SIZE <= self.best.records.len() {
                let mut candidate = self.best.clone();
                let dropped = at * RECORD_SIZE..(at + run) * RECORD_SIZE;
                candidate.records.drain(dropped);
                if !self.attempt(candidate) {
                    at += run;
                }
            }
            run /= 2;
        }
    }

    /// A range of one column, or of all.
    fn plain_range(&mut self) {
        let Question { from, to, .. } = self.best;
        for (from, to) in [(from, from), (to, to), (0, u16::MAX)] {
            let records = self.best.records.clone();
            self.attempt(Question { records, from, to });
        }
    }

    /// Makes the bytes of the records 0 that are no mark.
    fn plain_bytes(&mut self) {
        for at in 0..self.best.records.len() {
            let mut candidate = self.best.clone();
            if at % RECORD_SIZE >= 2 {
                candidate.records[at] = 0;
                self.attempt(candidate);
            }
        }
    }
}
