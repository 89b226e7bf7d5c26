//! What a line of the vectors shows, and which lines are stored: the shortest
//! of each sort.

use std::collections::BTreeMap;

use model::lines::{from_hex, Case};
use model::rule::Right;
use model::soundness::sound_card;
use model::vectors::case_lines;
use model::{bodies, deciding, objects, Card};

/// How many cases are stored, or a few more.
pub const STORED_CASES: usize = 400;
const LONGEST_STORED_LINE: usize = 2000;
/// For the first case of a sort; those that show bodies have pools too. Few
/// sorts of others are so long.
const LONGEST_FIRST_LINE: usize = 12_000;
const LONGEST_FIRST_LINE_WITH_BODIES: usize = 22_000;

/// The bytes 06 and 07 that a command met: of the file that it selects or
/// would change; for CREATE "in" a directory, and "of" a new file. Only where
/// the word is one that life cycles can give; 6985 has other reasons too.
fn met_with_b2(instruction: &str, case: &str, result: &str) -> String {
    let card_in = |line: &str, field: usize| {
        let image = line.split(' ').nth(field).and_then(from_hex)?;
        sound_card(&image)
    };
    let (Some(before), Some(after)) = (card_in(case, 1), card_in(result, 3)) else {
        return String::new();
    };
    let directory = |card: &Card| card.record(card.current_df).life_cycle;
    let file = |card: &Card| card.record(card.current_ef.unwrap_or(card.current_df)).life_cycle;
    let met = match (instruction, result.split(' ').nth(2).unwrap_or("")) {
        ("A4", "9000" | "6283") => vec![("", file(&after))],
        ("E0", "9000") => vec![(" in", directory(&before)), (" of", file(&after))],
        ("E0", "6985") => vec![(" in", directory(&before))],
        ("E6", "9000" | "6985") => vec![("", directory(&before))],
        ("44" | "04" | "E8", "9000" | "6985") => vec![("", file(&before))],
        _ => vec![],
    };
    let with_b2 = met.into_iter().filter(|(_, byte)| [0x06, 0x07].contains(byte));
    with_b2.map(|(how, byte)| format!("{how} {byte:02X}")).collect()
}

/// What a SELECT shows of Ticket 2: which file a template describes, whether
/// a buffer that was too short was there at all, which length was wrong.
fn met_with_fcp(case: &str, result: &str) -> String {
    let case: Vec<&str> = case.split(' ').collect();
    let result: Vec<&str> = result.split(' ').collect();
    let (&[_, _, command, .., lent], &[_, answer, word, _, _, response, data, ..]) =
        (case.as_slice(), result.as_slice())
    else {
        return String::new();
    };
    let response = from_hex(response).unwrap_or_default();
    match (answer, word, data) {
        ("5", _, _) => format!(" {}", if lent == "-" { "none" } else { "short" }),
        (_, "6700", _) => format!(" {} bytes", command.len() / 2),
        (_, _, "0") => String::new(),
        _ => {
            let kind = match (response.get(3), response.get(10), response.get(4)) {
                (Some(4), _, _) => "records",
                (_, Some(0x84), _) => "named DF",
                (_, _, Some(byte)) if byte & 0x38 == 0x38 => "DF",
                _ => "EF",
            };
            format!(" {kind}{}", rule_object(response.get(2..).unwrap_or(&[])))
        }
    }
}

/// Of a rule's object what Tickets 3 and 7 brought: AB, more than 16 bytes, 8B.
fn rule_object(template: &[u8]) -> String {
    let mut left = template;
    while let Some((object, after)) = objects::first(left) {
        let long = if object.value.len() > 16 { " long" } else { "" };
        match object.tag {
            0x8C => return long.to_string(),
            0xAB => return format!(" AB{long}"),
            0x8B => return " 8B".to_string(),
            _ => left = after,
        }
    }
    String::new()
}

/// What a command met, or sent, of Tickets 3 and 7: the rule in CREATE's data;
/// else the form of the rule that lets it pass or refuses it, of DELETE the
/// directory's, and of a referred one where it led.
fn met_with_rules(instruction: &str, case: &str, result: &str) -> String {
    let fields: Vec<&str> = case.split(' ').collect();
    let (&[_, image, command, _, _, _, _, pool, _], Some(word)) =
        (fields.as_slice(), result.split(' ').nth(2))
    else {
        return String::new();
    };
    let command = from_hex(command).unwrap_or_default();
    let card = from_hex(image).and_then(|image| sound_card(&image));
    let asked = card.map(|card| {
        let target = match instruction {
            "44" | "04" | "E8" | "B0" | "D6" | "B2" | "DC" => {
                card.current_ef.unwrap_or(card.current_df)
            }
            _ => card.current_df,
        };
        let led = where_it_led(&card, &from_hex(pool).unwrap_or_default(), target);
        (card.edition.version_number(), card.record(target).form.number(), led)
    });
    match (instruction, word, asked) {
        ("A4", ..) | (_, _, None) => String::new(),
        ("E0", "6A80" | "9000", Some((version, _, _))) => {
            format!(" v{version}{}", rule_object(command.get(7..).unwrap_or(&[])))
        }
        (_, "6982" | "9000", Some((_, 1, _))) => " by AB".to_string(),
        (_, "6982" | "9000", Some((_, 2, led))) => format!(" by 8B {led}"),
        _ => String::new(),
    }
}

/// Where the rule of the file in a slot stands, or why none is found.
fn where_it_led(card: &Card, pool: &[u8], slot: usize) -> String {
    match deciding::rule_of(card, pool, slot) {
        Ok(found) if matches!(found.place, deciding::Place::InPool { .. }) => "pool".to_string(),
        Ok(_) => "record".to_string(),
        Err(lost) => format!("{lost:?}"),
    }
}

/// What a D case shows: the image's version and where the rule is, or why it is
/// nowhere.
fn of_deciding(case: &str) -> String {
    let Some(Case::Deciding { image, pool, slot }) = Case::parse(case) else {
        return String::new();
    };
    match sound_card(&image) {
        None => "unsound".to_string(),
        Some(card) => {
            let version = card.edition.version_number();
            format!("{version} {}", where_it_led(&card, &pool, slot))
        }
    }
}

/// What a command shows of Ticket 4: the version, where it reads or writes a
/// body; how CREATE found a place for a new body; whether DELETE wiped any.
fn met_with_bodies(instruction: &str, case: &str, result: &str) -> String {
    let case: Vec<&str> = case.split(' ').collect();
    let result: Vec<&str> = result.split(' ').collect();
    let (&[_, image, .., pool, _], &[_, _, word, image_after, pool_after, ..]) =
        (case.as_slice(), result.as_slice())
    else {
        return String::new();
    };
    let card = |image: &str| from_hex(image).and_then(|image| sound_card(&image));
    let (Some(before), Some(after)) = (card(image), card(image_after)) else {
        return String::new();
    };
    match (instruction, word, after.edition.has_bodies()) {
        ("B0" | "D6" | "B2" | "DC", ..) => format!(" v{}", after.edition.version_number()),
        ("E0", "9000", true) => place_of_the_new(&before, &after).to_string(),
        ("E4", "9000", true) if pool != pool_after => " wiped".to_string(),
        _ => String::new(),
    }
}

/// Where a new EF's body is: above all others, in a gap below one, or above them
/// after they were packed.
fn place_of_the_new(before: &Card, after: &Card) -> &'static str {
    let old = bodies::in_order(before);
    let start = |card: &Card, slot: usize| card.record(slot).start;
    match after.current_ef {
        None => "",
        Some(_) if old.iter().any(|&slot| start(before, slot) != start(after, slot)) => " packed",
        Some(new) if old.iter().any(|&slot| start(after, slot) > start(after, new)) => " in a gap",
        Some(_) => " above",
    }
}

/// What a refusal for security shows of Ticket 6: the result's number, in
/// words; of DELETE also where its two rules decide differently.
fn met_with_security(case: &str, result: &str) -> String {
    let security = match result.split(' ').nth(7) {
        Some("1") => " lacking",
        Some("2") => " closed",
        _ => return String::new(),
    };
    let two_rules = match two_decisions(case) {
        Some([own, directory]) if own != directory => " of two",
        _ => "",
    };
    format!("{security}{two_rules}")
}

/// What the child's own rule and the directory's decide on a DELETE.
fn two_decisions(case: &str) -> Option<[model::Decision; 2]> {
    let Case::Command { image, command, state, pool, .. } = Case::parse(case)? else {
        return None;
    };
    let &[_, 0xE4, _, _, _, high, low] = command.as_slice() else { return None };
    let card = sound_card(&image)?;
    let identifier = u16::from_be_bytes([high, low]);
    let child =
        card.children(card.current_df).find(|&s| card.record(s).identifier == identifier)?;
    let asked = [(child, Right::DeleteSelf), (card.current_df, Right::DeleteChild)];
    Some(asked.map(|(slot, right)| deciding::decide(&card, &pool, slot, right, &state)))
}

/// What a line shows, so that one of each sort is stored: the kind, the
/// result's head, versions and forms, and of a command its instruction and
/// what it met of 06 and 07, of expanded or longer rules, of bodies, and of
/// security; of a SELECT also P2 and what it shows of templates.
pub fn sort_of(line: &str) -> String {
    let (case, result) = line.split_once(" > ").unwrap_or((line, ""));
    let kind: String = case.chars().take(1).collect();
    let head: Vec<&str> = result.split(' ').skip(1).take(2).collect();
    match kind.as_str() {
        "C" => {
            let command = case.split(' ').nth(2).unwrap_or("");
            let instruction = command.get(2..4).unwrap_or("");
            let p2 = command.get(6..8).filter(|_| instruction == "A4");
            let p2 = p2.map(|p2| format!(" {p2}")).unwrap_or_default();
            let fcp = if p2.is_empty() { String::new() } else { met_with_fcp(case, result) };
            let b2 = met_with_b2(instruction, case, result);
            let rules = met_with_rules(instruction, case, result);
            let bodies = met_with_bodies(instruction, case, result);
            let security = met_with_security(case, result);
            format!("C {instruction}{p2} {}{fcp}{bodies}{b2}{rules}{security}", head.join(" "))
        }
        "Y" => format!("Y {:.8}", head.first().unwrap_or(&"")),
        "E" => format!("E {} {}", case.get(2..3).unwrap_or(""), decided(result)),
        "D" => format!("D {}", of_deciding(case)),
        _ => format!("{kind}{} {}", versions(case), head.first().unwrap_or(&"")),
    }
}

/// Which of the three decisions a rule gives among its seven, or that it is
/// malformed.
fn decided(result: &str) -> String {
    if result == "E malformed" {
        return "malformed".to_string();
    }
    let given = [('0', "granted"), ('1', "lacking"), ('2', "closed")]
        .into_iter()
        .filter(|(digit, _)| result.contains(*digit));
    given.map(|(_, name)| name).collect::<Vec<_>>().join(" ")
}

/// The version of a report's image; the version and the form of M and W.
fn versions(case: &str) -> String {
    let fields: Vec<&str> = case.split(' ').collect();
    match *fields.as_slice() {
        ["R", image] => format!(" {}", image.get(9..10).unwrap_or("")),
        ["M", _, _, _, version, form, _] => format!(" {version} {form}"),
        ["W", version, form, _] => format!(" {version} {form}"),
        _ => String::new(),
    }
}

/// How long the first case of a sort may be.
fn longest_first(sort: &str) -> usize {
    let reads_or_writes = ["C B", "C D"].iter().any(|start| sort.starts_with(start));
    if reads_or_writes || sort.contains("packed") || sort.contains("in a gap") {
        LONGEST_FIRST_LINE_WITH_BODIES
    } else {
        LONGEST_FIRST_LINE
    }
}

/// Chooses the shortest lines of each sort, sort by sort, until there are
/// enough.
pub fn choose(text: &str) -> Vec<&str> {
    let mut sorts: BTreeMap<String, Vec<&str>> = BTreeMap::new();
    for line in case_lines(text) {
        sorts.entry(sort_of(line)).or_default().push(line);
    }
    for lines in sorts.values_mut() {
        lines.sort_by_key(|line| (line.len(), *line));
        lines.dedup();
    }
    let mut chosen = Vec::new();
    for round in 0.. {
        let mut found = false;
        for (sort, lines) in &sorts {
            let longest = if round == 0 { longest_first(sort) } else { LONGEST_STORED_LINE };
            let line = lines.get(round).filter(|line| line.len() <= longest);
            found |= line.is_some();
            chosen.extend(line);
        }
        if !found || chosen.len() >= STORED_CASES {
            break;
        }
    }
    chosen
}
