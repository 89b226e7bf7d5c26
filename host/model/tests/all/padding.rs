//! 02, Ticket 7: the rule with which a record begins; A65 to A67.

use crate::common::*;
use model::deciding::before_padding;
use model::lines::hex;
use model::rule::{groups, Form};

/// A65, A66, and what else a record may hold; of the rule so many bytes.
#[test]
fn the_rule_before_the_padding() {
    for (record, length) in [
        ("8001089000", Some(5)),
        ("8001089000FF", Some(5)),
        ("8001089000FFFFFF", Some(5)),
        ("8001089E01FF", Some(6)),
        ("8001089E01FFFF", Some(6)),
        ("8001089E01FFFFFF", Some(6)),
        ("80017F970080017F9E01FF", Some(11)),
        ("80017F970080017F9E01FFFFFF", Some(11)),
        ("800108A0059E01FF9000FFFF", Some(10)),
        ("800108A0069E01FF9E01FFFFFF", Some(11)),
        ("800108AF0490009700FF", Some(9)),
        ("800108900080010897009E01FFFF", Some(13)),
        ("-", None),
        ("FF", None),
        ("FFFFFFFFFFFFFFFF", None),
        ("FF8001089000", None),
        ("80010890", None),
        ("8001089E01", None),
        ("800108FFFF", None),
        ("8001FFFFFF", None),
        ("8001FF9000", None),
        ("8001089000FF00", None),
        ("800108900000", None),
        ("8001089000FFFF00FF", None),
        ("8001089000FF9000FF", None),
        ("8001089000 800108FF", None),
        ("800108A0049E01FFFF", None),
        ("7F00000000000000", None),
        ("0000000000000000", None),
    ] {
        let record = bytes(record);
        let wanted = length.map(|length| &record[..length]);
        assert_eq!(before_padding(&record), wanted, "{}", hex(&record));
    }
}

/// A67: up to the record's 255 bytes, with and without padding.
#[test]
fn rules_of_every_length_in_a_record() {
    for length in 5..=255 {
        for padding in [0, 1, 255 - length] {
            let mut record = bytes(&expanded_of(length));
            record.resize(length + padding, 0xFF);
            assert_eq!(before_padding(&record), Some(&record[..length]), "{length}, {padding}");
        }
    }
}

/// Tried for every beginning: never two of them are a rule before padding.
#[test]
fn there_is_one_beginning_at_most() {
    let (mut random, mut counts) = (Random(71), [0; 2]);
    let pieces = ["800108", "80017F", "9000", "9700", "9E01FF", "9E0100", "A0049E01FF9000", "FF"];
    for _ in 0..60_000 {
        let count = 1 + random.below(6);
        let text: String = (0..count).map(|_| pieces[random.below(pieces.len())]).collect();
        let start = ["800108", "800101", "9000"][random.below(3)];
        let record = bytes(&format!("{start}{text}{}", "FF".repeat(random.below(4))));
        let good = |length: &usize| {
            let (rule, padding) = record.split_at(*length);
            padding.iter().all(|&b| b == 0xFF) && groups(Form::Expanded, rule).is_some()
        };
        let all: Vec<usize> = (1..=record.len()).filter(good).collect();
        assert!(all.len() <= 1, "{}: {all:?}", hex(&record));
        let wanted = all.first().map(|&length| &record[..length]);
        assert_eq!(before_padding(&record), wanted, "{}", hex(&record));
        counts[all.len()] += 1;
    }
    assert!(counts.iter().all(|&count| count > 5000), "{counts:?}");
}
