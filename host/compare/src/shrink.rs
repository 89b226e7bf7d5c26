//! Making a disagreement smaller: pieces of the case are left out or made
//! plain as long as it still shows. What is left is easier to understand.

use cases::{Again, History};
use model::lines::Case as Line;

use crate::again::check_again;
use crate::check::{check_history, check_line};
use crate::disagreement::Disagreement;
use crate::pieces::{pieces_of, weight};
use crate::subject::Pair;
use crate::tally::Tally;

/// How many bytes of smaller cases are tried at most, and what a case counts
/// beside its bytes; so large cards get fewer tries, and each search ends soon.
const MOST_BYTES: usize = 60_000_000;
const EACH_TRY: usize = 1000;

/// The smallest disagreement found from this one on.
pub fn smallest(pair: Pair, found: Disagreement) -> Disagreement {
    match found {
        Disagreement::Line { line, .. }
        | Disagreement::Demand1 { line, .. }
        | Disagreement::Opened { line, .. }
        | Disagreement::Standing { line, .. } => {
            let shows = |line: &Line| check_line(pair, line, &mut Tally::default()).is_err();
            let line = smallest_line(*line, &shows);
            match check_line(pair, &line, &mut Tally::default()) {
                Err(smaller) => smaller,
                Ok(_) => Disagreement::Unsteady { line: line.into() },
            }
        }
        Disagreement::Ledger { history, complaint } => smallest_history(pair, history, complaint),
        Disagreement::Again { ref again, .. } => smallest_again(pair, again).unwrap_or(found),
        Disagreement::Unsteady { .. } => found,
    }
}

/// Leaves out single commands, from the last on, as long as something still
/// disagrees.
fn smallest_history(pair: Pair, whole: History, complaint: String) -> Disagreement {
    let mut best = Disagreement::Ledger { history: whole, complaint };
    let mut at = usize::MAX;
    while let Disagreement::Ledger { history, .. } = &best {
        at = at.min(history.steps.len());
        let Some(place) = at.checked_sub(1) else { break };
        at = place;
        let mut fewer = history.clone();
        fewer.steps.remove(place);
        if let Err(smaller) = check_history(pair, &fewer, &mut Tally::default()) {
            best = smaller;
        }
    }
    smaller_of_another_sort(pair, best)
}

/// Makes the card smaller whose files are made again, as a report's line does.
fn smallest_again(pair: Pair, whole: &Again) -> Option<Disagreement> {
    let with_image = |line: &Line| match line {
        Line::Report { image } => Some(Again { image: image.clone(), ..whole.clone() }),
        _ => None,
    };
    let shown = |line: &Line| {
        with_image(line).and_then(|again| check_again(pair, &again, &mut Tally::default()).err())
    };
    let start = Line::Report { image: whole.image.clone() };
    let found = shown(&smallest_line(start, &|line| shown(line).is_some()))?;
    Some(smaller_of_another_sort(pair, found))
}

/// A disagreement that shows in one line is made smaller as that.
fn smaller_of_another_sort(pair: Pair, found: Disagreement) -> Disagreement {
    match found {
        Disagreement::Line { .. }
        | Disagreement::Demand1 { .. }
        | Disagreement::Opened { .. }
        | Disagreement::Standing { .. } => smallest(pair, found),
        _ => found,
    }
}

/// Takes every smaller line that still shows, until none does.
fn smallest_line(line: Line, shows: &dyn Fn(&Line) -> bool) -> Line {
    let mut best = line;
    let mut tried = 0;
    loop {
        let before = weight(&best);
        for piece in pieces_of(&best) {
            // The piece was chosen in an earlier best; in the present one it
            // may no longer be there.
            let Some(smaller) = piece.taken_from(&best) else { continue };
            if weight(&smaller) >= weight(&best) {
                continue;
            }
            tried += weight(&smaller).0 + EACH_TRY;
            if tried > MOST_BYTES {
                return best;
            }
            if shows(&smaller) {
                best = smaller;
            }
        }
        if weight(&best) == before {
            return best;
        }
    }
}
