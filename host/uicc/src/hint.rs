//! Why a CREATE was refused with 6A80, where it is the access rule.

use card::{Form, Kind, Rule};
use model::template::tags;

use crate::rule::{self, Malformed};
use crate::{describe, fcp};

/// What is wrong with the rule of a CREATE for a kind of card, below a title;
/// nothing if the rule is good, or the objects cannot be told apart.
pub fn of_rule(command: &[u8], kind: Kind) -> Option<(&'static str, String)> {
    let objects = match fcp::objects(command.get(5..)?)?.as_slice() {
        [(tags::TEMPLATE, inside)] => fcp::objects(inside)?,
        _ => return None,
    };
    let form = |tag| Form::ALL.into_iter().find(|form| form.tag() == tag);
    let rule = |(tag, bytes)| Some(Rule { form: form(tag)?, bytes });
    let rules: Vec<_> = objects.into_iter().filter_map(rule).collect();
    match rules.as_slice() {
        [] => Some(("rule", "no rule: neither 8C, AB nor 8B".to_string())),
        [rule] => Some((fcp::title(rule.form), wrong(*rule, kind)?)),
        several => {
            let tags: Vec<_> =
                several.iter().map(|rule| format!("{:02X}", rule.form.tag())).collect();
            let tags = tags.join(" and in ");
            Some(("rule", format!("the rule stands in {tags}: one of them is wanted")))
        }
    }
}

fn wrong(rule: Rule, kind: Kind) -> Option<String> {
    let version = kind.version;
    let length = rule.bytes.len();
    match kind.longest_rule(rule.form) {
        None => {
            let what = match rule.form {
                Form::Referred => "rule that a file keeps",
                Form::Compact | Form::Expanded => "expanded rule",
            };
            Some(format!("a card of version {version} takes no {what}"))
        }
        Some(_) if rule.form == Form::Referred => {
            rule::malformed(rule).map(|wrong| wrong.why().to_string())
        }
        Some(most) if !(1..=most).contains(&length) => {
            let length = describe::bytes(length);
            Some(format!("{length}, and a card of version {version} takes 1 to {most}"))
        }
        Some(_) => {
            let tell = |wrong: Malformed| format!("malformed: {}", wrong.tell(0, length));
            rule::malformed(rule).map(tell)
        }
    }
}
