//! Long words in lines.

use super::super::*;
use super::random::Noise;

/// The columns before a rule's words in `uicc rule`, `show` and `run`.
const INDENTS: [usize; 3] = [2, 6, 20];

#[test]
fn words_are_folded_before_conditions_and_behind_stops() {
    let rights = "DELETE, TERMINATE, ACTIVATE, DEACTIVATE";
    let conditions = "user authentication 1 or (user authentication 2 and secure messaging 3)";
    assert_eq!(folded(&format!("{rights}: {conditions}"), 6), format!("{rights}: {conditions}"));
    // 120 columns stand in one line, 121 do not.
    for (indent, stop) in [(7, " "), (8, "\n          ")] {
        let wanted = format!("{rights}: {}{stop}and secure messaging 3)", &conditions[..48]);
        assert_eq!(folded(&wanted.replace(stop, " "), indent), wanted);
    }
    let more = format!("{rights}: {conditions}; WRITE, UPDATE: always");
    let wanted = format!("{rights}: {conditions};\n   WRITE, UPDATE: always");
    assert_eq!(folded(&more, 1), wanted);
}

/// The words are the same, and no line is too wide.
#[test]
fn rules_at_random_are_folded() {
    let mut noise = Noise::new(4);
    let mut most = 0;
    for _ in 0..2000 {
        let (compact, expanded) = (noise.compact(), noise.expanded());
        for rule in [Rule::compact(&compact), Rule::expanded(&expanded)] {
            let words = words(rule, Owner::Directory).expect("a good rule").join("; ");
            for indent in INDENTS {
                let told = format!("{:indent$}{}", "", folded(&words, indent));
                assert!(told.lines().all(|line| line.len() <= 120), "{told}");
                let deeper = format!("{:1$}", "", indent + 2);
                let begin =
                    |line: &str| line.starts_with(&deeper) && !line[indent + 2..].starts_with(' ');
                assert!(told.lines().skip(1).all(begin), "{told}");
                let again: Vec<_> = told.lines().map(str::trim_start).collect();
                assert_eq!(again.join(" "), words);
                most = most.max(again.len());
            }
        }
    }
    assert!(most > 4, "{most} lines");
}
