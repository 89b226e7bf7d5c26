//! A whole tree made again on a card of the same measures: each file by its
//! template under its own parent, a directory before what lies in it.

use model::{bodies, Card, State};

use crate::actions::{select, select_fcp};
use crate::again::{record_of, takes_files, Again, Call, Played, Remade, Session};
use crate::random::Random;
use crate::target::Target;

/// Makes the tree again, if it is one that can be: nothing is terminated, and
/// each directory that holds files takes files. Of the root that is not asked:
/// the other card has its own.
pub(crate) fn play<E>(again: &Again, card: &Card, call: Call<E>) -> Result<Played, E> {
    let (terminated, passed): (Vec<_>, Vec<_>) =
        card.used_slots().filter(|&slot| slot != 0).partition(|&slot| card.is_terminated(slot));
    let can_be = |&slot: &usize| card.children(slot).next().is_none() || takes_files(card, slot);
    if card.is_terminated(0) || !terminated.is_empty() || !passed.iter().all(can_be) {
        let (terminated, passed) = (terminated.len(), passed.len());
        return Ok(Played { remade: Vec::new(), terminated, passed });
    }
    let target = Target::of_measures(card.edition, card.records.len(), card.record(0).size);
    let image = call(&target.make())?.image;
    let mut tree = Tree {
        card,
        own: Session::of(again.seed, again.image.clone(), State::EMPTY),
        other: Session::of(again.seed, image, target.state),
        random: Random::new(again.seed),
        remade: Vec::new(),
    };
    tree.own.command(call, &select(0x3F00))?;
    tree.below(call, (0, 0))?;
    Ok(Played { remade: tree.after(), ..Played::default() })
}

/// A tree being made again.
struct Tree<'a> {
    card: &'a Card,
    own: Session,
    other: Session,
    random: Random,
    remade: Vec<Remade>,
}

impl Tree<'_> {
    /// Makes all files beneath a directory again. It is current on both cards,
    /// then and afterwards; its slots on them are `df` and `made`.
    fn below<E>(&mut self, call: Call<E>, (df, made): (usize, usize)) -> Result<(), E> {
        let card = self.card;
        let back = select(card.record(df).identifier);
        for slot in card.children(df) {
            let file = card.record(slot);
            let template = self.own.command(call, &select_fcp(file.identifier))?.data;
            let word = self.other.create(&mut self.random, call, &template, file.is_df())?;
            self.remade.push(Remade {
                old: record_of(&self.own.image, slot),
                new: Vec::new(),
                template,
                word,
                directory: (made as u16, card.record(df).level),
                with_body: bodies::has_body(card, file),
            });
            if file.is_df() {
                self.below(call, (slot, self.remade.len()))?;
                self.own.command(call, &back)?;
                self.other.command(call, &back)?;
            }
        }
        Ok(())
    }

    /// What was made, with the records as they are at the end: they fill the
    /// slots from 1 on in the order in which they were made.
    fn after(self) -> Vec<Remade> {
        let image = self.other.image;
        let made = self.remade.into_iter().enumerate();
        made.map(|(at, file)| Remade { new: record_of(&image, at + 1), ..file }).collect()
    }
}
