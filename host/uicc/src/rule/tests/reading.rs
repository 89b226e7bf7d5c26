//! The words of a need, read.

use model::State;

/// Whether words hold in a state, read as a person reads them: brackets first,
/// and no bracket is left out where "and" and "or" would meet.
pub struct Reading<'a> {
    left: &'a str,
    state: &'a State,
}

impl Reading<'_> {
    pub fn of(words: &str, state: &State) -> bool {
        match words {
            "always" => return true,
            "never" => return false,
            _ => {}
        }
        let mut reading = Reading { left: words, state };
        let held = reading.list();
        assert_eq!(reading.left, "", "{words}");
        held
    }

    fn list(&mut self) -> bool {
        let mut held = self.one();
        let mut joined_by = None;
        while let Some(word) =
            [" or ", " and "].into_iter().find(|word| self.left.starts_with(word))
        {
            assert!(joined_by.replace(word).map_or(true, |other| other == word), "{}", self.left);
            self.left = &self.left[word.len()..];
            let other = self.one();
            held = if word == " or " { held || other } else { held && other };
        }
        held
    }

    fn one(&mut self) -> bool {
        if let Some(inside) = self.left.strip_prefix('(') {
            self.left = inside;
            let held = self.list();
            self.left = self.left.strip_prefix(')').expect("a closing bracket");
            return held;
        }
        let kinds = [
            ("secure messaging ", self.state.messaging),
            ("external authentication ", self.state.external),
            ("user authentication ", self.state.user),
        ];
        let found = kinds.into_iter().find(|(kind, _)| self.left.starts_with(kind));
        let (kind, set) = found.unwrap_or_else(|| panic!("{}", self.left));
        let rest = &self.left[kind.len()..];
        let digits = rest.find(|sign: char| !sign.is_ascii_digit()).unwrap_or(rest.len());
        let environment: u16 = rest[..digits].parse().expect("a number");
        self.left = &rest[digits..];
        set >> environment & 1 == 1
    }
}
