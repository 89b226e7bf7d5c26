//! The tree of files on a card, for people.

use std::collections::HashMap;

use card::{Card, Rule};
use model::Card as Decoded;

use crate::rule::{self, Owner};
use crate::standing::{Origin, Standing};
use crate::{bar, describe, hex, pool};

/// Deeper levels are no longer drawn further to the right; they are numbered.
const DEEPEST_DRAWN: u16 = 16;
/// The tree's column is at least so wide.
const NARROWEST: usize = 12;

/// A file of the tree.
struct Row {
    /// Branches and identifier.
    place: String,
    slot: usize,
}

/// The whole tree with a line about the card above it; below it the pool, where
/// there is one, and the rules.
pub fn show(card: &Card) -> Result<String, String> {
    let decoded = Decoded::decode(card.image()).ok_or("the image cannot be read")?;
    let rows = rows(&decoded);
    let (slots, used, version) = (decoded.records.len(), rows.len(), card.kind().version);
    let width = rows.iter().map(|row| row.place.len()).max().unwrap_or(0).max(NARROWEST);
    let mut told =
        format!("card of version {version}, {slots} slots: {used} used, {} free\n\n", slots - used);
    let bodies = card.kind().has_bodies();
    let measures = |size: &str, start: &str| match bodies {
        true => format!("{size:>8}  {start:>5}"),
        false => format!("{size:>8}"),
    };
    let title = measures("size", "start");
    told += &line(width, ["file", "kind", "life cycle", &title, "rule", "room"]);
    let mut rules = Rules::default();
    for Row { place, slot } in &rows {
        let record = decoded.record(*slot);
        let kind = describe::kind(record.descriptor);
        let life_cycle = describe::life_cycle(record.life_cycle);
        let start = if record.is_ef() { record.start.to_string() } else { String::new() };
        let measures = measures(&record.size.to_string(), &start);
        let standing = Standing::of(card, &decoded, *slot)?;
        let rule = Shown { owner: rule::owner(record), own: rule::of_record(record), standing };
        let (rule, notes) = (rules.number(rule).to_string(), notes(&decoded, *slot));
        told += &line(width, [place, kind, &life_cycle, &measures, &rule, &notes]);
    }
    Ok(told + &pool::map(&decoded).unwrap_or_default() + &rules.told())
}

fn line(width: usize, [place, kind, life_cycle, measures, rule, notes]: [&str; 6]) -> String {
    let text =
        format!("{place:width$}  {kind:12}  {life_cycle:16}  {measures}  {rule:>4}  {notes}");
    format!("{}\n", text.trim_end())
}

/// The rule of a file.
#[derive(Clone, PartialEq, Eq, Hash)]
struct Shown<'a> {
    owner: Owner,
    /// What its record has, maybe a reference.
    own: Rule<'a>,
    standing: Standing<'a>,
}

impl Shown<'_> {
    /// Where it stands, and what it allows.
    fn told(&self, number: usize) -> String {
        let (owner, object) = (self.owner.plural(), rule::object(self.own));
        let deciding = self.standing.rule();
        let (head, mut parts) = match (self.standing.origin(), deciding) {
            (None, _) => (format!("of {owner}, in their own records"), Vec::new()),
            (Some(Origin::Record(words)), rule) => {
                let bytes = hex::row(rule.map_or(&[], |rule| rule.bytes));
                (format!("of {owner}"), vec![format!("kept in {words}: {bytes}")])
            }
            (Some(Origin::Nowhere(why)), _) => {
                (format!("of {owner}"), vec![format!("denies everything: {why}")])
            }
        };
        let allowed = deciding.map(|rule| rule::words(rule, self.owner));
        let malformed = |_| vec!["malformed".to_string()];
        parts.extend(allowed.map_or_else(Vec::new, |parts| parts.unwrap_or_else(malformed)));
        let mut told = format!("\nrule {number}, {head}: {object}\n");
        for part in parts {
            told += &format!("      {}\n", rule::folded(&part, 6));
        }
        told
    }
}

/// The rules of a card, each once. A directory's and a file's are two, since
/// they are read differently, and so are references that lead to two places.
#[derive(Default)]
struct Rules<'a> {
    rules: Vec<Shown<'a>>,
    numbers: HashMap<Shown<'a>, usize>,
}

impl<'a> Rules<'a> {
    /// The number of a rule, from 1.
    fn number(&mut self, rule: Shown<'a>) -> usize {
        if let Some(number) = self.numbers.get(&rule) {
            return *number;
        }
        self.rules.push(rule.clone());
        self.numbers.insert(rule, self.rules.len());
        self.rules.len()
    }

    /// Where each of them stands, and what it allows.
    fn told(&self) -> String {
        (1..).zip(&self.rules).map(|(number, rule)| rule.told(number)).collect()
    }
}

/// The children of each slot, in their slots' order.
pub fn children(card: &Decoded) -> Vec<Vec<usize>> {
    let mut children = vec![Vec::new(); card.records.len()];
    for slot in card.used_slots().filter(|&slot| slot != 0) {
        if let Some(list) = children.get_mut(card.parent(slot)) {
            list.push(slot);
        }
    }
    children
}

/// All files, each directory before its children, these in their slots' order.
fn rows(card: &Decoded) -> Vec<Row> {
    let mut children = children(card);
    let mut rows = Vec::new();
    let mut left = vec![(0, String::new(), String::new())];
    while let Some((slot, branch, trunk)) = left.pop() {
        let record = card.record(slot);
        let level = match record.level {
            level if level > DEEPEST_DRAWN => format!("(level {level}) "),
            _ => String::new(),
        };
        rows.push(Row { place: format!("{branch}{level}{:04X}", record.identifier), slot });
        let own = std::mem::take(&mut children[slot]);
        let drawn = record.level < DEEPEST_DRAWN;
        for (number, child) in own.into_iter().rev().enumerate() {
            let (branch, below) = if number == 0 { ("`- ", "   ") } else { ("|- ", "|  ") };
            let deeper = if drawn { format!("{trunk}{below}") } else { trunk.clone() };
            left.push((child, format!("{trunk}{branch}"), deeper));
        }
    }
    rows
}

/// A directory's room, an EF's records, a name, and whether it is current.
fn notes(card: &Decoded, slot: usize) -> String {
    let record = card.record(slot);
    let mut notes = Vec::new();
    if record.is_df() {
        let bar = bar::used(card.charged(slot), u64::from(record.size));
        notes.push(format!("{bar} {} left", card.room(slot)));
    } else if record.record_length > 0 {
        let length = u32::from(record.record_length);
        notes.push(format!("{} records of {length}", record.size / length));
    }
    if !record.name.is_empty() {
        notes.push(format!("name {}", hex::row(&record.name)));
    }
    if slot == card.current_df {
        notes.push("<- current directory".to_string());
    } else if Some(slot) == card.current_ef {
        notes.push("<- current file".to_string());
    }
    notes.join("  ")
}
