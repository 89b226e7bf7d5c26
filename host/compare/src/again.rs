//! Files made again by their templates (02, Ticket 2), by card and model at
//! once: each call is compared, and what was made is judged.

use cases::again::{Again, Left, Played};

use crate::check::check_line;
use crate::disagreement::Disagreement;
use crate::outcome::Outcome;
use crate::subject::Pair;
use crate::tally::Tally;

/// Makes the files of a case again; gives what was made.
pub fn check_again(pair: Pair, again: &Again, tally: &mut Tally) -> Result<Played, Disagreement> {
    let mut lines = Vec::new();
    let played = again.play(&mut |line| {
        lines.push(line.clone());
        check_line(pair, line, tally).map(left)
    })?;
    let wrong = played.remade.iter().find_map(|file| file.complaint());
    if let Some(complaint) = wrong {
        return Err(Disagreement::Again { again: again.clone(), lines, complaint });
    }
    tally.made_again += played.remade.len() as u64;
    Ok(played)
}

/// What the next calls need of what one gave.
fn left(given: Option<Outcome>) -> Left {
    let nothing = Left { word: 0, image: Vec::new(), pool: Vec::new(), data: Vec::new() };
    match given {
        Some(Outcome::Make { buffer, .. }) => Left { image: buffer, ..nothing },
        Some(Outcome::Command { told, image, pool, mut response }) => {
            response.truncate(usize::try_from(told.numbers[0]).unwrap_or(0));
            Left { word: told.word, image, pool, data: response }
        }
        _ => nothing,
    }
}
