//! What suffices for a right, as short as it can be said.

use card::State;

use super::{Condition, Sort};

/// What can be authenticated, each in sixteen environments.
#[derive(Clone, Copy, PartialEq, Eq, Debug)]
pub enum Authentication {
    Messaging,
    External,
    User,
}

impl Authentication {
    /// Those that an SC byte names, by their bits.
    const BY_BIT: [(u8, Authentication); 3] = [
        (0x40, Authentication::Messaging),
        (0x20, Authentication::External),
        (0x10, Authentication::User),
    ];

    fn words(self) -> &'static str {
        match self {
            Authentication::Messaging => "secure messaging",
            Authentication::External => "external authentication",
            Authentication::User => "user authentication",
        }
    }

    /// Whether it is done in an environment.
    fn is_done(self, environment: u8, state: &State) -> bool {
        let environments = match self {
            Authentication::Messaging => state.messaging,
            Authentication::External => state.external,
            Authentication::User => state.user,
        };
        environments.checked_shr(u32::from(environment)).unwrap_or(0) & 1 == 1
    }
}

/// What must be done. `Always`, `Never` and a list of one stand nowhere inside
/// a list, nor does a list inside one of its own sort, nor a need twice.
#[derive(Clone, PartialEq, Eq, Debug)]
pub enum Need {
    Always,
    Never,
    /// An authentication with its environment.
    One(Authentication, u8),
    Any(Vec<Need>),
    All(Vec<Need>),
}

impl Need {
    /// What a condition needs.
    pub fn of(condition: &Condition) -> Need {
        match &condition.sort {
            Sort::Always => Need::Always,
            Sort::Never => Need::Never,
            Sort::Byte(byte) => Need::of_byte(*byte),
            Sort::OneOf(inside) => Need::any(inside.iter().map(Need::of)),
            Sort::AllOf(inside) => Need::all(inside.iter().map(Need::of)),
        }
    }

    /// What an SC byte needs; b8 asks for all of what it names.
    pub fn of_byte(byte: u8) -> Need {
        let environment = byte & 0x0F;
        match byte {
            0x00 => return Need::Always,
            _ if environment == 15 => return Need::Never,
            _ => {}
        }
        let named: Vec<_> = Authentication::BY_BIT
            .into_iter()
            .filter(|(bit, _)| byte & bit != 0)
            .map(|(_, what)| Need::One(what, environment))
            .collect();
        match byte & 0x80 != 0 && !named.is_empty() {
            true => Need::all(named),
            false => Need::any(named),
        }
    }

    /// One of these suffices; none does where there is none.
    pub fn any(needs: impl IntoIterator<Item = Need>) -> Need {
        let mut list = Vec::new();
        for need in needs {
            match need {
                Need::Always => return Need::Always,
                Need::Never => {}
                Need::Any(inside) => inside.into_iter().for_each(|need| add(&mut list, need)),
                need => add(&mut list, need),
            }
        }
        only(list, Need::Never, Need::Any)
    }

    /// All of these are needed.
    pub fn all(needs: impl IntoIterator<Item = Need>) -> Need {
        let mut list = Vec::new();
        for need in needs {
            match need {
                Need::Never => return Need::Never,
                Need::Always => {}
                Need::All(inside) => inside.into_iter().for_each(|need| add(&mut list, need)),
                need => add(&mut list, need),
            }
        }
        only(list, Need::Always, Need::All)
    }

    /// What is still to be done in a state: the need without what is done. No need
    /// asks that something is missing, so this and no less opens it.
    pub fn missing(&self, state: &State) -> Need {
        let each = |needs: &[Need]| -> Vec<Need> {
            needs.iter().map(|need| need.missing(state)).collect()
        };
        match self {
            Need::One(what, environment) if what.is_done(*environment, state) => Need::Always,
            Need::Always | Need::Never | Need::One(..) => self.clone(),
            Need::Any(needs) => Need::any(each(needs)),
            Need::All(needs) => Need::all(each(needs)),
        }
    }

    /// In words; a list in another one stands in brackets.
    pub fn words(&self) -> String {
        let bracketed = |need: &Need| match need {
            Need::Any(_) | Need::All(_) => format!("({})", need.words()),
            _ => need.words(),
        };
        let joined =
            |needs: &[Need], by: &str| needs.iter().map(bracketed).collect::<Vec<_>>().join(by);
        match self {
            Need::Always => "always".to_string(),
            Need::Never => "never".to_string(),
            Need::One(what, environment) => format!("{} {environment}", what.words()),
            Need::Any(needs) => joined(needs, " or "),
            Need::All(needs) => joined(needs, " and "),
        }
    }
}

fn add(list: &mut Vec<Need>, need: Need) {
    if !list.contains(&need) {
        list.push(need);
    }
}

/// A list of one is that one.
fn only(mut list: Vec<Need>, none: Need, many: fn(Vec<Need>) -> Need) -> Need {
    match (list.pop(), list.is_empty()) {
        (None, _) => none,
        (Some(need), true) => need,
        (Some(last), false) => {
            list.push(last);
            many(list)
        }
    }
}
