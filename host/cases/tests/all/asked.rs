//! What a command shows of the rules that it asks at step J (02, Tickets 6 and 7).

use cases::Rule;
use model::deciding::rule_of;
use model::lines::Case as Line;
use model::rule::{decide, groups, Condition, Form, Right};
use model::soundness::sound_card;
use model::template;
use model::{command, words, Card, Decision, Outcome, State};

/// One command on a sound image, which asks a rule or two.
pub struct Asked {
    card: Card,
    command: Vec<u8>,
    state: State,
    outcome: Outcome,
    /// The rule that is asked, and for which right; of DELETE the child's first.
    rules: Vec<(Rule, Right)>,
    /// The same with full sets on a card all of whose rules are open, no other
    /// channel and the right pool.
    open: Outcome,
}

impl Asked {
    /// Runs the command of a line, if it is one that asks a rule.
    pub fn of(line: Line) -> Option<Asked> {
        let Line::Command { image, mut pool, command: bytes, state, response } = line else {
            return None;
        };
        let card = sound_card(&image)?;
        let asks = asks_of(&card, &bytes)?.into_iter();
        let rules = asks.map(|(slot, right)| (deciding(&card, &pool, slot), right)).collect();
        let run = |card: &Card, pool: &mut [u8], state: &State| {
            command(&mut card.encode(), pool, &bytes, &mut response.clone(), state)
        };
        let mut opened = card.clone();
        for record in opened.records.iter_mut().filter(|record| record.is_used()) {
            (record.form, record.rule) = (Form::Compact, cases::compact::open());
        }
        let outcome = run(&card, &mut pool, &state);
        let mut right_pool = vec![0; model::bodies::pool_length(&card).unwrap_or(0)];
        let open = run(&opened, &mut right_pool, &State::FULL);
        Some(Asked { card, command: bytes, state, outcome, rules, open })
    }

    /// What it shows.
    pub fn names(&self) -> Vec<String> {
        let decisions: Vec<_> = self.decisions().collect();
        let how = name(Decision::of_alternatives(decisions.clone()));
        let passes = how == "granted" && self.outcome == self.open;
        if !passes && self.outcome.word != words::SECURITY_NOT_SATISFIED {
            return self.before_j(how);
        }
        let mut names = vec![self.instruction(&decisions)];
        if how != "granted" {
            let later = match self.open.answer {
                0 => format!("{:04X}", self.open.word),
                answer => format!("answer {answer}"),
            };
            names.push(format!("{how} before {later}"));
        }
        if let [(rule, right)] = self.rules.as_slice() {
            names.extend(of_conditions(rule, *right, &self.state));
            names.extend(self.of_state(how, rule, *right));
        }
        names
    }

    fn decisions(&self) -> impl Iterator<Item = Decision> + '_ {
        self.rules.iter().map(|(rule, right)| decided(rule, *right, &self.state))
    }

    /// A refusal before step J, though the rule does not grant it.
    fn before_j(&self, how: &str) -> Vec<String> {
        let Outcome { answer, word, .. } = self.outcome;
        let channel = word == words::CONDITIONS_NOT_SATISFIED
            && self.state.another_channel_open()
            && !self.card.is_terminated(0);
        let what = match answer {
            6 => "answer 6",
            _ if channel => "6985 of a channel",
            _ => return Vec::new(),
        };
        vec![format!("{what}, {how}")]
    }

    /// The instruction, and what was decided in which form; of DELETE by each.
    fn instruction(&self, decisions: &[Decision]) -> String {
        let ins = self.command[1];
        if let [own, directory] = decisions {
            return format!("{ins:02X} own {}, directory {}", name(*own), name(*directory));
        }
        let (rule, right) = &self.rules[0];
        let kind = match (ins, right) {
            (0xE0, Right::CreateDf) => " DF",
            (0xE0, _) => " EF",
            _ => "",
        };
        let form = if rule.form == Form::Compact { "compact" } else { "expanded" };
        format!("{ins:02X}{kind} {form} {}", name(decisions[0]))
    }

    /// How many bits the state has, and whether one more would do.
    fn of_state(&self, how: &str, rule: &Rule, right: Right) -> Vec<String> {
        let State { messaging, external, user, .. } = self.state;
        let sets = [messaging, external, user];
        let with = match sets.iter().map(|set| set.count_ones()).sum::<u32>() {
            0 => "empty sets",
            1 => "one bit alone",
            47 => "all but one bit",
            48 => "full sets",
            _ => "some bits",
        };
        let one_more = (0..48).any(|bit| {
            let mut sets = sets;
            sets[bit / 16] |= 1 << (bit % 16);
            let [messaging, external, user] = sets;
            decided(rule, right, &State { messaging, external, user, channels: 0 }).is_granted()
        });
        let for_one = (how == "lacking" && one_more).then(|| "lacking for one bit".to_string());
        [format!("{how} with {with}")].into_iter().chain(for_one).collect()
    }
}

fn name(decision: Decision) -> &'static str {
    match decision {
        Decision::Granted => "granted",
        Decision::Lacking => "lacking",
        Decision::Closed => "closed",
    }
}

/// The rule that decides on the file in a slot; where there is none, the
/// reference that leads nowhere, which opens nothing.
fn deciding(card: &Card, pool: &[u8], slot: usize) -> Rule {
    let own = card.record(slot);
    match rule_of(card, pool, slot) {
        Ok(found) => Rule { form: found.form, bytes: found.rule.to_vec() },
        Err(_) => Rule { form: own.form, bytes: own.rule.clone() },
    }
}

fn decided(rule: &Rule, right: Right, state: &State) -> Decision {
    decide(rule.form, &rule.bytes, right, state)
}

/// Whose rules a command asks, and for which rights, that is well made as far as
/// they are concerned.
pub fn asks_of(card: &Card, command: &[u8]) -> Option<Vec<(usize, Right)>> {
    let (df, ef) = (card.current_df, card.current_ef);
    let &[0x00, ins, ..] = command else { return None };
    Some(match (ins, command.get(5..)) {
        (0x44, _) => vec![(ef.unwrap_or(df), Right::Activate)],
        (0x04, _) => vec![(ef.unwrap_or(df), Right::Deactivate)],
        (0xE8, _) => vec![(ef?, Right::Terminate)],
        (0xE6, _) => vec![(df, Right::Terminate)],
        (0xFE, _) => vec![(0, Right::Terminate)],
        (0xE0, Some(data)) => {
            let is_df = template::read(data, card.edition)?.descriptor & 0x38 == 0x38;
            vec![(df, if is_df { Right::CreateDf } else { Right::CreateEf })]
        }
        (0xE4, Some(&[high, low])) => {
            let identifier = u16::from_be_bytes([high, low]);
            let child = card.children(df).find(|&s| card.record(s).identifier == identifier)?;
            vec![(child, Right::DeleteSelf), (df, Right::DeleteChild)]
        }
        (0xB0 | 0xB2, _) if card.edition.has_bodies() => vec![(ef?, Right::READ)],
        (0xD6 | 0xDC, _) if card.edition.has_bodies() => vec![(ef?, Right::UPDATE)],
        _ => return None,
    })
}

/// What a rule that denies shows of its conditions for a right.
fn of_conditions(rule: &Rule, right: Right, state: &State) -> Vec<String> {
    let decision = decided(rule, right, state);
    let groups = groups(rule.form, &rule.bytes).unwrap_or_default();
    let named: Vec<_> = groups.iter().filter(|group| group.rights & right.bit() != 0).collect();
    let conditions: Vec<_> = named.iter().flat_map(|group| &group.conditions).collect();
    let mut names = Vec::new();
    match decision {
        Decision::Granted => return names,
        Decision::Closed => {
            names.extend(conditions.is_empty().then(|| "closed, in no group".to_string()));
            names.extend((named.len() > 1).then(|| "closed, several groups".to_string()));
        }
        Decision::Lacking => {
            let closed = |group: &&&model::rule::Group| {
                group.conditions.iter().all(|one| one.decide(state) == Decision::Closed)
            };
            let beside = named.iter().any(|group| closed(&group));
            names.extend(beside.then(|| "lacking beside a closed group".to_string()));
        }
    }
    for one in conditions.into_iter().filter(|one| one.decide(state) == decision) {
        names.extend(of_condition(one, state));
        let depth = depth(one);
        names.extend((depth > 0).then(|| format!("{}, {depth} deep", name(decision))));
    }
    names
}

fn depth(condition: &Condition) -> usize {
    match condition {
        Condition::OneOf(inside) | Condition::AllOf(inside) => {
            1 + inside.iter().map(depth).max().unwrap_or(0)
        }
        _ => 0,
    }
}

/// What a condition that denies shows by itself.
fn of_condition(condition: &Condition, state: &State) -> Vec<String> {
    let decision = condition.decide(state);
    let has = |inside: &[Condition], wanted| inside.iter().any(|one| one.decide(state) == wanted);
    let never = |inside: &[Condition]| inside.contains(&Condition::Never);
    let shown = match (condition, decision) {
        (Condition::Never, _) => vec!["closed by 97"],
        (Condition::Byte(0xFF), _) => vec!["closed by FF"],
        (Condition::Byte(sc), Decision::Closed) if sc & 0x0F == 15 => vec!["closed by n = 15"],
        (Condition::Byte(_), Decision::Closed) => vec!["closed by no named condition"],
        (Condition::Byte(sc), _) if sc & 0x80 != 0 => vec!["lacking, all asked for"],
        (Condition::Byte(sc), _) if (sc & 0x70).count_ones() > 1 => {
            vec!["lacking, one of several asked for"]
        }
        (Condition::OneOf(_), Decision::Closed) => vec!["closed, A0"],
        (Condition::OneOf(inside), _) if never(inside) => vec!["lacking, A0 with a 97 and a byte"],
        (Condition::AllOf(inside), Decision::Closed) if never(inside) => {
            let held = has(inside, Decision::Granted);
            let lacks = has(inside, Decision::Lacking);
            let with = [
                (true, "closed, AF with a 97"),
                (held, "closed, AF with a 97 and what would hold"),
                (lacks, "closed, AF with a 97 and what lacks"),
            ];
            with.into_iter().filter(|(is_so, _)| *is_so).map(|(_, name)| name).collect()
        }
        (Condition::AllOf(inside), Decision::Lacking) if has(inside, Decision::Granted) => {
            vec!["lacking, AF with what holds"]
        }
        _ => Vec::new(),
    };
    shown.into_iter().map(str::to_string).collect()
}
