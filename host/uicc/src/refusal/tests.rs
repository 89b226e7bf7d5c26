//! What is told of a refusal, beside what the card does.

use card::{Kind, Reply, Rule, Security, Word};
use cases::random::Random;
use cases::rule_files;
use model::command::Instruction;
use model::{Record, State as ModelState};

use super::*;
use crate::rule::tests::random::Noise;
use crate::rule::tests::reading::Reading;

/// The slots of the root, of 7F10 in it, and of 6F07 in that.
const SLOTS: [usize; 3] = [0, 1, 2];
const CREATE_DF: &str = "00E0000019 6217 82027821 83027F20 8A0105 8C03060000 81020001 C60100";
const CREATE_EF: &str = "00E0000015 6213 82024121 83026F08 8A0105 8C020100 80020009";

/// Every command that asks rules, with what is asked where 6F07 is current, and
/// where only 7F10 is.
const ALL: [(&str, &[&str], &[&str]); 12] = [
    (CREATE_DF, &["7F10, CREATE DF"], &["7F10, CREATE DF"]),
    (CREATE_EF, &["7F10, CREATE EF"], &["7F10, CREATE EF"]),
    (
        "00E4000002 6F07",
        &["6F07, DELETE", "7F10, DELETE CHILD"],
        &["6F07, DELETE", "7F10, DELETE CHILD"],
    ),
    ("00440000", &["6F07, ACTIVATE"], &["7F10, ACTIVATE"]),
    ("00040000", &["6F07, DEACTIVATE"], &["7F10, DEACTIVATE"]),
    ("00E80000", &["6F07, TERMINATE"], &[]),
    ("00E60000", &["7F10, TERMINATE"], &["7F10, TERMINATE"]),
    ("00FE0000", &["3F00, TERMINATE"], &["3F00, TERMINATE"]),
    ("00B0000009", &["6F07, READ"], &[]),
    ("00B2010409", &["6F07, READ"], &[]),
    ("00D600000141", &["6F07, UPDATE"], &[]),
    ("00DC01040141", &["6F07, UPDATE"], &[]),
];

fn bytes(row: &str) -> Vec<u8> {
    crate::hex::bytes(row).expect("hex")
}

/// A card of version 3 with three files, 6F07 or only its directory being
/// current, each with a rule in its slot's place; nothing if one is too long.
fn card(rules: [Rule; 3], file_is_current: bool) -> Option<Card> {
    let mut card = Card::make(8, Kind::VERSION_3, 448, Rule::OPEN).expect("a card");
    for row in [
        CREATE_DF.replace("7F20", "7F10").replace("0001 C6", "0100 C6"),
        CREATE_EF.replace("6F08", "6F07"),
    ] {
        let reply = card.command(&bytes(&row), &State::FULL).expect("a sound card");
        assert_eq!(reply.word, Word::DONE, "{row}");
    }
    let mut decoded = Decoded::decode(card.image()).expect("a card");
    for (slot, rule) in SLOTS.into_iter().zip(rules) {
        let form = match rule.form {
            Form::Compact => model::rule::Form::Compact,
            Form::Expanded => model::rule::Form::Expanded,
            Form::Referred => model::rule::Form::Referred,
        };
        let record = decoded.record(slot).clone();
        decoded.put(slot, Record { form, rule: rule.bytes.to_vec(), ..record });
    }
    decoded.current_ef = decoded.current_ef.filter(|_| file_is_current);
    let fits = rules.iter().all(|rule| (1..=28).contains(&rule.bytes.len()));
    fits.then(|| Card::from_parts(decoded.encode(), card.into_parts().1).expect("good rules"))
}

fn reply(card: &Card, command: &[u8], state: &State) -> Reply {
    card.clone().command(command, state).expect("a sound card")
}

/// What the lines below a command say: of each rule whose it is with the right,
/// and the need; and what is missing, if that is told.
fn read(lines: &str) -> (Vec<(String, String)>, Option<String>) {
    let deeper = " ".repeat(22);
    let whole = lines.replace(&format!("\n{deeper}"), " ");
    let (mut rules, mut missing, mut before) = (Vec::new(), None, "");
    for line in whole.lines() {
        let (title, words) = line.split_at(20);
        match title.trim() {
            "missing" => assert!(missing.replace(words.to_string()).is_none(), "{lines}"),
            // Where a reference leads stands below its rule.
            "kept in" | "denies" => assert!(before.trim() == "rule (8B)", "{lines}"),
            _ => {}
        }
        before = title;
        if !title.trim().starts_with("rule ") {
            continue;
        }
        let first = if rules.is_empty() { "of " } else { "or of " };
        let words = words.strip_prefix(first).expect("whose rule it is");
        let (whose, need) = words.split_once(": ").expect("a right and a need");
        rules.push((whose.to_string(), need.to_string()));
    }
    (rules, missing)
}

/// Every command of the card but SELECT asks a rule, and none is forgotten here.
#[test]
fn every_command_is_among_them() {
    let listed = |instruction: u8| ALL.iter().any(|(row, ..)| bytes(row)[1] == instruction);
    for (byte, instruction) in Instruction::ALL {
        assert_eq!(listed(byte), instruction != Instruction::Select, "{instruction:?}");
    }
}

#[test]
fn each_command_names_the_rules_that_it_asks() {
    for (file_is_current, empty) in [(true, 0), (false, 5)] {
        let closed = [Rule::compact(&[0x00]); 3];
        let card = card(closed, file_is_current).expect("short rules");
        let mut none = 0;
        for (row, with_file, without) in ALL {
            let wanted = if file_is_current { with_file } else { without };
            let (rules, missing) = read(&below(&bytes(row), &card, &State::EMPTY));
            let whose: Vec<_> = rules.iter().map(|(whose, _)| whose.as_str()).collect();
            assert_eq!(whose, wanted, "{row}");
            assert_eq!(missing, None, "{row}");
            // Where no rule is asked, security refuses nothing.
            let word = reply(&card, &bytes(row), &State::EMPTY).word;
            assert_eq!(word == Word::SECURITY, !wanted.is_empty(), "{row}");
            none += usize::from(wanted.is_empty());
        }
        assert_eq!(none, empty);
    }
    let card = card([Rule::OPEN; 3], true).expect("short rules");
    for row in ["", "00", "00A4000C026F07", "00E4", "00B10000"] {
        assert_eq!(below(&bytes(row), &card, &State::EMPTY), "", "{row}");
        assert_eq!(in_short(&bytes(row), &card, &State::EMPTY), "", "{row}");
    }
}

/// Three rules at random, of both forms.
fn rules(noise: &mut Noise) -> [(Form, Vec<u8>); 3] {
    [(); 3].map(|()| match noise.below(2) {
        0 => (Form::Compact, noise.compact()),
        _ => (Form::Expanded, noise.expanded()),
    })
}

/// Sets of which few bits are on.
fn state(noise: &mut Noise) -> State {
    let mut set = || (noise.below(1 << 16) & noise.below(1 << 16)) as u16;
    State { messaging: set(), external: set(), user: set(), channels: 0 }
}

fn both(one: &State, other: &State) -> State {
    State {
        messaging: one.messaging | other.messaging,
        external: one.external | other.external,
        user: one.user | other.user,
        channels: 0,
    }
}

/// Whether words hold in a state.
fn holds(words: &str, state: &State) -> bool {
    let State { messaging, external, user, channels } = *state;
    Reading::of(words, &ModelState { messaging, external, user, channels })
}

/// The words about one command agree with the word and the number that the
/// library gives; gives that number.
fn agrees(card: &Card, command: &[u8], now: &State, more: &State) -> Security {
    let Reply { word, security, .. } = reply(card, command, now);
    let lines = below(command, card, now);
    let (rules, missing) = read(&lines);
    let needs = || rules.iter().map(|(_, need)| need.as_str());
    let wanted = match needs().any(|need| holds(need, now)) {
        true => Security::NoRefusal,
        false if needs().all(|need| need == "never") => Security::Closed,
        false => Security::Lacking,
    };
    assert_eq!(security, wanted, "{command:02X?} {now:?}\n{lines}");
    assert_eq!(word == Word::SECURITY, security != Security::NoRefusal, "{lines}");
    if security == Security::NoRefusal {
        return security;
    }
    // With more done the card opens exactly if what was missing is among it.
    let opened = reply(card, command, &both(now, more)).word != Word::SECURITY;
    match missing {
        Some(missing) => assert_eq!(holds(&missing, more), opened, "{more:?}\n{lines}"),
        None => assert_eq!(needs().any(|need| holds(need, more)), opened, "{more:?}\n{lines}"),
    }
    security
}

#[test]
fn the_words_agree_with_the_number_of_the_library() {
    let mut noise = Noise::new(5);
    let (mut counts, mut halves) = ([0; 3], 0);
    for _ in 0..1500 {
        let rules = rules(&mut noise);
        let rules = rules.each_ref().map(|(form, bytes)| Rule { form: *form, bytes });
        let Some(card) = card(rules, noise.below(4) > 0) else { continue };
        for (row, ..) in ALL {
            let command = bytes(row);
            let (now, more) = (state(&mut noise), state(&mut noise));
            let missing = read(&below(&command, &card, &now)).1;
            // Without a current file some ask no rule.
            if reply(&card, &command, &State::EMPTY).word == Word(0x6986) {
                continue;
            }
            let security = agrees(&card, &command, &now, &more);
            counts[security.number() as usize] += 1;
            halves += usize::from(security == Security::Lacking && missing.is_some());
        }
    }
    assert!(counts.iter().all(|&count| count > 2000) && halves > 100, "{counts:?}, {halves}");
}

/// The same where the rules stand in records of files, on cards of the generator.
/// Other conditions may refuse before security does.
#[test]
fn the_words_agree_where_records_keep_the_rules() {
    let (mut counts, mut denied, mut kept) = ([0; 3], 0, 0);
    for number in 0..6000 {
        let mut random = Random::for_case(8, number);
        let (card, command, ModelState { messaging, external, user, channels }) =
            rule_files::asked(&mut random);
        let card = Card::from_parts(card.card.encode(), card.pool).expect("a sound card");
        let now = State { messaging, external, user, channels };
        if reply(&card, &command, &now).word != Word::SECURITY {
            continue;
        }
        let lines = below(&command, &card, &now);
        denied += lines.matches("        denies ").count();
        kept += lines.matches("        kept in ").count();
        let more = State { channels, ..state(&mut Noise::new(number)) };
        counts[agrees(&card, &command, &now, &more).number() as usize] += 1;
    }
    assert!(counts[1] > 200 && counts[2] > 200, "{counts:?}");
    assert!(denied > 200 && kept > 200, "{denied}, {kept}");
}

#[test]
fn what_is_done_already_is_left_out() {
    // CREATE EF: user 1, or external 2 and messaging 2; DELETE CHILD: user 3.
    let rule = bytes("800102 9E0111 AF06 9E0122 9E0142 800101 9E0113");
    let card = card([Rule::OPEN, Rule::expanded(&rule), Rule::compact(&[0x40, 0xB1])], true);
    let card = card.expect("short rules");
    let (create, delete) = (bytes(CREATE_EF), bytes("00E40000026F07"));
    let told = |command: &[u8], state: State| below(command, &card, &state);
    let whole = "        rule (AB)   of 7F10, CREATE EF: \
                 user authentication 1 or (external authentication 2 and secure messaging 2)\n";
    assert_eq!(told(&create, State::EMPTY), whole);
    let missing = "        missing     user authentication 1 or external authentication 2\n";
    assert_eq!(told(&create, State { messaging: 4, ..State::EMPTY }), format!("{whole}{missing}"));
    let two = "        rule (8C)   of 6F07, DELETE: \
               external authentication 1 and user authentication 1\n        \
               rule (AB)   or of 7F10, DELETE CHILD: user authentication 3\n";
    assert_eq!(told(&delete, State::EMPTY), two);
    let missing = "        missing     user authentication 1 or user authentication 3\n";
    assert_eq!(told(&delete, State { external: 2, ..State::EMPTY }), format!("{two}{missing}"));
}

#[test]
fn a_sentence_stays_short() {
    let one = card([Rule::compact(&[0x20, 0x11]); 3], true).expect("short rules");
    let terminate = bytes("00E80000");
    let told = |card: &Card, state: State| in_short(&terminate, card, &state);
    assert_eq!(told(&one, State::EMPTY), "; rule of 6F07, TERMINATE: user authentication 1");
    let both = card([Rule::compact(&[0x20, 0xB1]); 3], true).expect("short rules");
    assert_eq!(
        told(&both, State { external: 2, ..State::EMPTY }),
        "; rule of 6F07, TERMINATE: external authentication 1 and user authentication 1; \
         missing: user authentication 1"
    );
    let many: Vec<u8> = (0..14).flat_map(|environment| [0x20, 0x70 | environment]).collect();
    let long = card([Rule::compact(&many); 3], true).expect("short rules");
    assert_eq!(told(&long, State::EMPTY), "; uicc show tells the long rule of 6F07, TERMINATE");
    let two = card([Rule::compact(&[0x40, 0x11]); 3], true).expect("short rules");
    let told = in_short(&bytes("00E40000026F07"), &two, &State::EMPTY);
    let wanted = "; rule of 6F07, DELETE: user authentication 1; or of 7F10, DELETE CHILD: never";
    assert_eq!(told, wanted);
}
