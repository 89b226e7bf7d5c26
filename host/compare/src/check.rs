//! A case run by the card and by the model, and beside every history demand 3's
//! two ledgers and what its files hold.

use cases::{Case, History, Lent};
use model::ledger::{current_df_slot, Ledger};
use model::lines::Case as Line;
use model::rule::Form;
use model::words::Word;
use model::Card;

use crate::again::check_again;
use crate::contents::{self, Contents};
use crate::demand1;
use crate::demand3::{word_fits, Given, WATCHED};
use crate::disagreement::Disagreement;
use crate::ledger::{heard, Ledger as Stated};
use crate::opened;
use crate::outcome::{run, Outcome};
use crate::rights::lines_of_rule;
use crate::standing;
use crate::subject::Pair;
use crate::tally::Tally;

/// Compares card and model on one line, what both give with demand 1, what the
/// card refuses for security with what it does under full sets, and where it says
/// that a rule stands with what stands there; gives what both give, or nothing where
/// the card has no call for the line.
pub fn check_line(
    pair: Pair,
    line: &Line,
    tally: &mut Tally,
) -> Result<Option<Outcome>, Disagreement> {
    let (Some(wanted), Some(given)) = (run(pair.model, line), run(pair.card, line)) else {
        return Ok(None);
    };
    if wanted != given {
        let (line, wanted, given) = (line.clone().into(), wanted.into(), given.into());
        return Err(Disagreement::Line { line, wanted, given });
    }
    if let Some(complaint) = demand1::complaint(line, &given) {
        let (line, given) = (line.clone().into(), given.into());
        return Err(Disagreement::Demand1 { line, given, complaint });
    }
    if let Some(complaint) = opened::complaint(pair.card, line, &given) {
        return Err(Disagreement::Opened { line: line.clone().into(), complaint });
    }
    if let Some(complaint) = standing::complaint(pair.card, line, &given) {
        let (line, given) = (line.clone().into(), given.into());
        return Err(Disagreement::Standing { line, given, complaint });
    }
    tally.count(line, &given);
    Ok(Some(given))
}

/// Compares card and model on a case.
pub fn check_case(pair: Pair, case: &Case, tally: &mut Tally) -> Result<(), Disagreement> {
    tally.cases += 1;
    let lines = match case {
        Case::History(history) => return check_history(pair, history, tally),
        Case::Again(again) => return check_again(pair, again, tally).map(|_| ()),
        Case::Rule { rule, state } => lines_of_rule(rule, *state),
        _ => case.lines(),
    };
    lines.iter().try_for_each(|line| check_line(pair, line, tally).map(|_| ()))
}

/// Demand 3's two ledgers beside one history: the model's, written from the
/// documents, and the one that the theorem speaks of.
struct Books {
    model: Ledger,
    stated: Stated,
}

impl Books {
    fn open(total: u32) -> Books {
        Books { model: Ledger::open(total), stated: Stated::opened(total) }
    }

    /// Enters a command; what they have against it, against the image that it
    /// left and the report on that, or against each other.
    fn enter(
        &mut self,
        command: &[u8],
        word: Word,
        (before, image): (u16, &[u8]),
        report: Option<&Outcome>,
    ) -> Option<String> {
        let after = current_df_slot(image);
        let (here, there) = (u64::from(before), u64::from(after));
        let fits = self.model.agrees(command, word, before)
            && word_fits(&self.stated, here, command, word);
        let told = heard(command, word);
        let next = self.stated.entered(told, here, there);
        self.model.enter(command, word, before, after);
        let given = Given { ledger: &self.stated, next: &next, told, before: here, after: there };
        let complaint = (!fits)
            .then(|| format!("word {word:04X} against the room that it knows"))
            .or_else(|| given.complaint(image))
            .or_else(|| differ(&self.model, &next))
            .or_else(|| report.and_then(|told| audit(&self.model, after, told)));
        self.stated = next;
        complaint
    }
}

/// What the two ledgers say differently of a directory.
fn differ(model: &Ledger, stated: &Stated) -> Option<String> {
    stated.directories().take(WATCHED).find_map(|d| {
        let by_model = u16::try_from(d).ok().and_then(|slot| model.room(slot));
        let room = stated.room_in(d);
        (by_model != Some(room)).then(|| format!("room of slot {d}: {by_model:?} and {room}"))
    })
}

/// Where another file keeps the current file's rule, asks where it stands: whoever
/// wrote that file may have changed it.
fn check_rule(pair: Pair, lent: &Lent, tally: &mut Tally) -> Result<(), Disagreement> {
    let Some(card) = Card::decode(&lent.image) else { return Ok(()) };
    let slot = card.current_ef.unwrap_or(card.current_df);
    if card.record(slot).form != Form::Referred {
        return Ok(());
    }
    let Lent { image, pool } = lent.clone();
    check_line(pair, &Line::Deciding { image, pool, slot }, tally).map(|_| ())
}

/// Plays a history command by command; after each a report, where the current
/// file's rule stands, the ledgers and what the files hold.
pub fn check_history(pair: Pair, history: &History, tally: &mut Tally) -> Result<(), Disagreement> {
    let made = check_line(pair, &history.make(), tally)?;
    let Some(Outcome::Make { answer: 0, buffer: image }) = made else {
        return Ok(());
    };
    let mut lent = Lent { image, pool: history.pool.clone() };
    let (mut books, mut contents) = (Books::open(history.total), Contents::default());
    for (number, step) in history.steps.iter().enumerate() {
        let Lent { image, pool } = &lent;
        let line = Line::command(image, pool, &step.command, &step.response, step.state);
        let outcome = check_line(pair, &line, tally)?;
        let Some(Outcome::Command { told, image, pool, response }) = outcome else { continue };
        let before = std::mem::replace(&mut lent, Lent { image, pool });
        let report = check_line(pair, &Line::Report { image: lent.image.clone() }, tally)?;
        check_rule(pair, &lent, tally)?;
        tally.ledger_steps += 1;
        let (command, word) = (step.command.as_slice(), told.word);
        let slot = current_df_slot(&before.image);
        let found = books.enter(command, word, (slot, &lent.image), report.as_ref());
        let data = response.get(..told.numbers[0] as usize).unwrap_or_default();
        let given = contents::Given { command, word, data, before: &before, after: &lent };
        let written = contents.enter(&given);
        if let Some(complaint) = found.or(written) {
            let steps = history.steps.iter().take(number + 1).cloned().collect();
            let history = History { steps, ..history.clone() };
            return Err(Disagreement::Ledger { history, complaint });
        }
    }
    Ok(())
}

/// What the ledger has against a report on a directory.
fn audit(ledger: &Ledger, directory: u16, report: &Outcome) -> Option<String> {
    let Outcome::Report { answer, numbers: [total, room, children, _], .. } = *report else {
        return None;
    };
    let known = (ledger.total(directory), ledger.room(directory), ledger.children(directory));
    let told = (Some(total), Some(u64::from(room)), children as usize);
    (answer != 0 || known != told).then(|| {
        format!("total, room, children of slot {directory}: {known:?} known, {told:?} reported")
    })
}
