//! What a file with a reference shows (02, Ticket 7): where the file stands that
//! it names, what that is, and what the record holds.

use model::deciding::{before_padding, rule_file, Lost};
use model::descriptor::{class, Class, Structure};
use model::rule::{groups, Form};
use model::{bodies, life_cycle, Card, Record};

/// All that can be shown of where the named file stands and what it is.
pub const OF_THE_FILE: [&str; 22] = [
    "the root is ruled",
    "a DF is ruled",
    "an EF is ruled",
    "found in the DF that holds it",
    "found one above",
    "found further above",
    "another of it further above",
    "nowhere",
    "nowhere but in the ruled DF",
    "found above, and in the ruled DF",
    "itself",
    "itself, another above",
    "a transparent EF",
    "a cyclic EF",
    "a DF",
    "a transparent EF before a linear fixed one",
    "a cyclic EF before a linear fixed one",
    "a DF before a linear fixed one",
    "an internal EF with rules",
    "rule file deactivated",
    "rule file terminated",
    "rule file that names itself",
];

/// All that can be shown of the record.
pub const OF_THE_RECORD: [&str; 14] = [
    "record 0",
    "record 1",
    "the last record",
    "one past the last",
    "past the last",
    "record 255",
    "a rule and padding",
    "a rule without padding",
    "FF before the padding",
    "a rule of more than 28 bytes",
    "padding alone",
    "padding first",
    "other bytes behind the rule",
    "no rule",
];

/// What the file in a slot shows, if it has a reference.
pub fn met(card: &Card, pool: &[u8], slot: usize) -> Vec<&'static str> {
    let file = card.record(slot);
    if file.form != Form::Referred {
        return Vec::new();
    }
    let mut names = vec![match (slot, file.is_df()) {
        (0, _) => "the root is ruled",
        (_, true) => "a DF is ruled",
        _ => "an EF is ruled",
    }];
    let hits = hits(card, slot, &file.rule);
    let own = file.is_df() && slot != 0 && child(card, slot, &file.rule).is_some();
    match hits.as_slice() {
        [] if own => names.push("nowhere but in the ruled DF"),
        [] => names.push("nowhere"),
        &[(_, nearest), ..] if nearest == slot => {
            names.push("itself");
            names.extend((hits.len() > 1).then_some("itself, another above"));
        }
        &[(steps, nearest), ref others @ ..] => {
            assert_eq!(rule_file(card, slot, &file.rule), Some(nearest));
            names.push(match steps {
                0 => "found in the DF that holds it",
                1 => "found one above",
                _ => "found further above",
            });
            names.extend((!others.is_empty()).then_some("another of it further above"));
            names.extend(own.then_some("found above, and in the ruled DF"));
            let linear = |&(_, other): &(usize, usize)| is_linear(card.record(other));
            names.extend(of_the_file(card.record(nearest), others.iter().any(linear)));
            names.extend(of_the_rule_file(card, pool, nearest, file.rule[2]));
        }
    }
    names
}

/// The files of the identifier in the directories searched, each with how many
/// directories are nearer.
fn hits(card: &Card, slot: usize, rule: &[u8]) -> Vec<(usize, usize)> {
    let searched = if slot == 0 { vec![0] } else { card.above(slot) };
    let found = searched.into_iter().enumerate();
    found.filter_map(|(steps, df)| Some((steps, child(card, df, rule)?))).collect()
}

fn child(card: &Card, df: usize, rule: &[u8]) -> Option<usize> {
    card.children(df).find(|&one| card.record(one).identifier.to_be_bytes() == rule[..2])
}

fn is_linear(file: &Record) -> bool {
    class(file.descriptor) == Class::Ef(Structure::LinearFixed)
}

/// A nearest file that holds no rules, and whether one that may is above.
fn of_the_file(file: &Record, linear_above: bool) -> Vec<&'static str> {
    let [name, before] = match class(file.descriptor) {
        Class::Ef(Structure::Transparent) => {
            ["a transparent EF", "a transparent EF before a linear fixed one"]
        }
        Class::Ef(Structure::Cyclic) => ["a cyclic EF", "a cyclic EF before a linear fixed one"],
        Class::Df => ["a DF", "a DF before a linear fixed one"],
        _ => return Vec::new(),
    };
    if linear_above {
        vec![name, before]
    } else {
        vec![name]
    }
}

/// Life cycle and rule of a rule file, which do not matter; the record.
fn of_the_rule_file(card: &Card, pool: &[u8], slot: usize, number: u8) -> Vec<&'static str> {
    let file = card.record(slot);
    if !is_linear(file) {
        return Vec::new();
    }
    let byte = file.life_cycle;
    let names_itself =
        file.form == Form::Referred && rule_file(card, slot, &file.rule) == Some(slot);
    let length = usize::from(file.record_length);
    let (last, number) = (file.size as usize / length, usize::from(number));
    let told = [
        (file.descriptor & 0x38 == 0x08, "an internal EF with rules"),
        (life_cycle::is_deactivated(byte), "rule file deactivated"),
        (life_cycle::is_terminated(byte), "rule file terminated"),
        (names_itself, "rule file that names itself"),
        (number == 0, "record 0"),
        (number == 1, "record 1"),
        (number == last, "the last record"),
        (number == last + 1, "one past the last"),
        (number > last, "past the last"),
        (number == 255, "record 255"),
    ];
    let mut names: Vec<_> = told.into_iter().filter(|(so, _)| *so).map(|(_, name)| name).collect();
    if (1..=last).contains(&number) {
        let start = bodies::body(file).start + length * (number - 1);
        names.extend(of_the_record(&pool[start..start + length]));
    }
    names
}

fn of_the_record(record: &[u8]) -> Vec<&'static str> {
    if record.iter().all(|&byte| byte == 0xFF) {
        return vec!["padding alone"];
    }
    let begins = |length: &usize| groups(Form::Expanded, &record[..*length]).is_some();
    let Some(rule) = before_padding(record) else {
        return vec![match record {
            [0xFF, ..] => "padding first",
            _ if (1..record.len()).any(|length| begins(&length)) => "other bytes behind the rule",
            _ => "no rule",
        }];
    };
    let padded = rule.len() < record.len();
    let told = [
        (padded, "a rule and padding"),
        (!padded, "a rule without padding"),
        (padded && rule.last() == Some(&0xFF), "FF before the padding"),
        (rule.len() > 28, "a rule of more than 28 bytes"),
    ];
    told.into_iter().filter(|(is_so, _)| *is_so).map(|(_, name)| name).collect()
}

/// Why there is no rule, in the words used here.
pub fn lost(lost: Lost) -> &'static [&'static str] {
    match lost {
        Lost::NotAFile => &[],
        Lost::NoRuleFile => &["nowhere", "nowhere but in the ruled DF"],
        Lost::Itself => &["itself"],
        Lost::OtherKind => &["a transparent EF", "a cyclic EF", "a DF"],
        Lost::NoSuchRecord => &["record 0", "past the last"],
        Lost::Malformed => {
            &["padding alone", "padding first", "other bytes behind the rule", "no rule"]
        }
    }
}
