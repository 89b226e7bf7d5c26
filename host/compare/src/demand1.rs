//! What demand 1 says of one command, asked of what the card left: every call
//! ends with an answer; any word but 9000, 6283 and 6285, and every answer but
//! 0, leaves image, pool and response buffer as they came. With it, that a pool
//! of any length stays where there are no bodies (02, Ticket 4), and that 6982,
//! and nothing else, comes with what it lacks (Ticket 6).

use model::lines::Case as Line;
use model::words::{is_success, SECURITY_NOT_SATISFIED};

use crate::outcome::Outcome;

/// The answers that a command can give.
const ANSWERS: [u32; 4] = [0, 1, 5, 6];

/// What is wrong with what a command gave, if anything.
pub fn complaint(line: &Line, given: &Outcome) -> Option<String> {
    let Line::Command { image: came, pool: lent_pool, response: lent, .. } = line else {
        return None;
    };
    let Outcome::Command { told, image, pool, response } = given else { return None };
    let [data, security, later] = told.numbers;
    let data = usize::try_from(data).unwrap_or(usize::MAX);
    if data > lent.len() {
        return Some(format!("{data} bytes of data are told in a buffer of {}", lent.len()));
    }
    let effect = told.answer == 0 && is_success(told.word);
    let refused = told.answer == 0 && told.word == SECURITY_NOT_SATISFIED;
    let bodies = card::Kind::of_image(came).has_bodies();
    let checks = [
        (ANSWERS.contains(&told.answer), "the answer is none of a command's"),
        (told.answer != 0 || told.word != 0, "there is no word with answer 0"),
        (told.answer == 0 || told.word == 0, "there is a word with another answer than 0"),
        (!refused || matches!(security, 1 | 2), "6982 is told neither lacking nor closed"),
        (refused || security == 0, "lacking or closed is told of no security refusal"),
        (later == 0, "a number of a later ticket is not 0"),
        (effect || image == came, "the image was changed without an effect"),
        (effect || pool == lent_pool, "the pool was changed without an effect"),
        (bodies || pool == lent_pool, "the pool of a card without bodies was changed"),
        (effect || response == lent, "the response buffer was changed without an effect"),
        (effect || data == 0, "data came without an effect"),
        (response.get(data..) == lent.get(data..), "bytes past the data were changed"),
    ];
    checks.into_iter().find(|(holds, _)| !holds).map(|(_, what)| what.to_string())
}
