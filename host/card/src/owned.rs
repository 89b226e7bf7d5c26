//! A card that owns its image and its pool.

use std::fmt;

use crate::errors::{CommandError, Damaged, MakeError, PlaceError, RefusedParts};
use crate::kind::{Kind, Rule};
use crate::lent::{self, Answer, Report};
use crate::place::Place;
use crate::security::Security;
use crate::state::State;
use crate::word::Word;
use crate::{image_length, pool_length, LONGEST_RESPONSE, MOST_SLOTS};

/// What a card replies to a command.
#[derive(Clone, PartialEq, Eq, Debug)]
pub struct Reply {
    /// The status word.
    pub word: Word,
    /// What is lacking where the word is 6982.
    pub security: Security,
    /// The data: what a READ reads, the template of a SELECT that wants it,
    /// else nothing.
    pub data: Vec<u8>,
}

/// A card with its image and its pool. It is sound from the start, and that
/// every command keeps it so is proved.
#[derive(Clone, PartialEq, Eq)]
pub struct Card {
    image: Vec<u8>,
    pool: Vec<u8>,
}

impl Card {
    /// A fresh card: only the root, with this total and access rule. A card
    /// with bodies gets a pool of zeros.
    pub fn make(slots: usize, kind: Kind, total: u32, root_rule: Rule) -> Result<Card, MakeError> {
        // One slot more than allowed is refused like any larger number, and
        // no memory is asked for that nobody has.
        let mut image = vec![0; image_length(slots.min(MOST_SLOTS + 1))];
        lent::make(&mut image, kind, total, root_rule)?;
        let pool = vec![0; pool_length(&image).unwrap_or(0)];
        Ok(Card { image, pool })
    }

    /// The card of an image and a pool from elsewhere, if the image is sound
    /// and the pool has its length. Where there are no bodies the pool may have
    /// any length; it is kept and never changed.
    pub fn from_parts(mut image: Vec<u8>, mut pool: Vec<u8>) -> Result<Card, RefusedParts> {
        // The library itself judges both, by a command that it always refuses.
        match lent::command(&mut image, &mut pool, &[], &mut [], &State::EMPTY) {
            Ok(_) => Ok(Card { image, pool }),
            Err(reason) => Err(RefusedParts::new(reason, image, pool)),
        }
    }

    /// The card of an image without bodies: [`Card::from_parts`] with an empty
    /// pool.
    pub fn from_image(image: Vec<u8>) -> Result<Card, RefusedParts> {
        Card::from_parts(image, Vec::new())
    }

    /// Runs one command; see [`lent::command`]. The response is always long
    /// enough.
    pub fn command(&mut self, command: &[u8], state: &State) -> Result<Reply, CommandError> {
        let mut response = [0; LONGEST_RESPONSE];
        let Answer { word, security, data_length } =
            lent::command(&mut self.image, &mut self.pool, command, &mut response, state)?;
        let data = response.into_iter().take(data_length).collect();
        Ok(Reply { word, security, data })
    }

    /// Reports on the current directory.
    pub fn report(&self) -> Result<Report, Damaged> {
        lent::report(&self.image)
    }

    /// Where the rule that decides on the file in a slot stands now; see
    /// [`lent::rule_place`].
    pub fn rule_place(&self, slot: usize) -> Result<Place, PlaceError> {
        lent::rule_place(&self.image, &self.pool, slot)
    }

    /// The bytes of that rule, without padding; none where nothing decides, and
    /// so everything is closed.
    pub fn rule_bytes(&self, slot: usize) -> Result<&[u8], PlaceError> {
        Ok(self.rule_place(slot)?.bytes(&self.image, &self.pool))
    }

    /// Asks the library once more whether the image is sound.
    pub fn is_sound(&self) -> bool {
        lent::is_sound(&self.image)
    }

    /// What card it is. No command changes that.
    pub fn kind(&self) -> Kind {
        Kind::of_image(&self.image)
    }

    /// The image.
    pub fn image(&self) -> &[u8] {
        &self.image
    }

    /// The pool, in which the bodies of the files lie; empty on a card that was
    /// made without bodies.
    pub fn pool(&self) -> &[u8] {
        &self.pool
    }

    /// The image, to be kept by the caller. A card with bodies is nothing
    /// without its pool: see [`Card::into_parts`].
    pub fn into_image(self) -> Vec<u8> {
        self.image
    }

    /// The image and the pool, to be kept by the caller, together.
    pub fn into_parts(self) -> (Vec<u8>, Vec<u8>) {
        (self.image, self.pool)
    }
}

/// Tells the lengths only; an image may have 65,488 bytes.
impl fmt::Debug for Card {
    fn fmt(&self, f: &mut fmt::Formatter<'_>) -> fmt::Result {
        write!(f, "Card of {} bytes, pool of {}", self.image.len(), self.pool.len())
    }
}
