//! 01, "CREATE", first paragraph: which data are 6A80 and which are not.

use crate::common::*;
use model::words::*;
use model::Word;

/// The word of a CREATE with these objects on a fresh card with room 960.
fn word(objects: &str) -> Word {
    run(&mut roomy(16), &create(objects))
}

#[track_caller]
fn good(objects: &str) {
    assert_eq!(format!("{:04X}", word(objects)), "9000", "{objects}");
}

#[track_caller]
fn bad(objects: &str) {
    assert_eq!(format!("{:04X}", word(objects)), "6A80", "{objects}");
}

const DF: [&str; 6] = ["82027821", "83027F10", "8A0105", "8C0100", "81020040", "C60100"];
const EF: [&str; 5] = ["82024121", "83026F07", "8A0105", "8C0100", "80020009"];

#[test]
fn each_object_once_in_order() {
    for objects in [&DF[..], &EF[..]] {
        good(&objects.concat());
        for left_out in 0..objects.len() {
            let mut fewer = objects.to_vec();
            let object = fewer.remove(left_out);
            bad(&fewer.concat());
            for place in (0..=fewer.len()).filter(|&place| place != left_out) {
                let mut moved = fewer.clone();
                moved.insert(place, object);
                bad(&moved.concat());
            }
            let mut twice = objects.to_vec();
            twice.insert(left_out, object);
            bad(&twice.concat());
        }
    }
}

#[test]
fn further_objects() {
    for objects in [&DF[..], &EF[..]] {
        let objects = objects.concat();
        for last in ["8500", "A500", "850101", "A503830100"] {
            good(&format!("{objects}{last}"));
            bad(&format!("{last}{objects}"));
        }
        for last in
            ["85008500", "8500A500", "A5008500", "8800", "880101", "8B036F0601", "AB00", "0000"]
        {
            bad(&format!("{objects}{last}"));
        }
        bad(&format!("{objects}85"));
        bad(&format!("{objects}8501"));
        bad(&format!("{objects}85 80"));
    }
}

#[test]
fn names_only_in_df_and_1_to_16_bytes() {
    let df = |name: &str| format!("82027821 83027F10 {name} 8A0105 8C0100 81020040 C60100");
    good(&df("8401A0"));
    good(&df(&format!("8410{}", "A0".repeat(16))));
    bad(&df("8400"));
    bad(&df(&format!("8411{}", "A0".repeat(17))));
    bad("82024121 83026F07 8401A0 8A0105 8C0100 80020009");
}

#[test]
fn descriptors() {
    for byte in 0..=255u8 {
        let df = "82{}83027F108A01058C010081020040C60100";
        let df_two = df.replace("{}", &format!("02{byte:02X}00"));
        let ef = "82{}83026F078A01058C010080020009";
        let ef_two = ef.replace("{}", &format!("02{byte:02X}FF"));
        let ef_four = ef.replace("{}", &format!("04{byte:02X}210003"));
        let is_df = [0x38, 0x78].contains(&byte);
        let transparent = [0x01, 0x09, 0x41, 0x49].contains(&byte);
        let records = [0x02, 0x06, 0x0A, 0x0E, 0x42, 0x46, 0x4A, 0x4E].contains(&byte);
        for (objects, takes) in [(df_two, is_df), (ef_two, transparent), (ef_four, records)] {
            assert_eq!(word(&objects) == SUCCESS, takes, "{objects}");
        }
    }
    bad("820178 83027F10 8A0105 8C0100 81020040 C60100");
    bad("8203782100 83027F10 8A0105 8C0100 81020040 C60100");
    bad("820478210000 83027F10 8A0105 8C0100 81020040 C60100");
    bad("8203422100 83026F07 8A0105 8C0100 80020009");
    bad("820542210000 03 83026F07 8A0105 8C0100 80020009");
}

#[test]
fn identifiers() {
    let ef = |identifier: &str| format!("82024121 83{identifier} 8A0105 8C0100 80020009");
    for reserved in ["023FFF", "027FFF", "02FFFF", "016F", "036F0700", "00"] {
        bad(&ef(reserved));
    }
    for ordinary in ["020000", "02BFFF", "027F00"] {
        good(&ef(ordinary));
    }
    assert_eq!(word(&ef("023F00")), IDENTIFIER_TAKEN);
}

#[test]
fn life_cycles_are_taken_and_kept_as_given() {
    for byte in 0..=255u8 {
        let taken = [0x01, 0x03, 0x04, 0x05, 0x06, 0x07].contains(&byte);
        let wanted = if taken { (SUCCESS, byte) } else { (WRONG_DATA, 0) };
        for text in [create_df_with("7F10", byte), create_ef_with("6F07", byte)] {
            let mut image = roomy(16);
            let word = run(&mut image, &text);
            assert_eq!((word, image[16 + 64 + 2]), wanted, "{text}");
        }
    }
    bad("82024121 83026F07 8A00 8C0100 80020009");
    bad("82024121 83026F07 8A020505 8C0100 80020009");
}

#[test]
fn rules() {
    let ef = |rule: &str| format!("82024121 83026F07 8A0105 8C{rule} 80020009");
    for malformed in ["00", "0180", "01FF", "0101", "027F00", "03020002", "03000080"] {
        bad(&ef(malformed));
    }
    bad(&ef(&format!("11{}", "00".repeat(17))));
    for well_formed in ["0100", "020100", "0402FF0200", "087F00000000000000"] {
        good(&ef(well_formed));
    }
    good(&ef(&format!("10{}", "00".repeat(16))));
}

#[test]
fn sizes() {
    let ef = |size: &str| format!("82024121 83026F07 8A0105 8C0100 80{size}");
    for wrong in ["0109", "00", "020000", "03000000", "0400000000", "050000000009"] {
        bad(&ef(wrong));
    }
    for right in ["020009", "03000009", "0400000009"] {
        good(&ef(right));
    }
    assert_eq!(word(&ef("04FFFFFFFF")), NOT_ENOUGH_MEMORY);
    assert_eq!(word(&ef("04FFFFFFC0")), NOT_ENOUGH_MEMORY);
    let df = |size: &str| format!("82027821 83027F10 8A0105 8C0100 81{size} C60100");
    for wrong in ["0109", "00", "020000", "0400000000", "050000000009"] {
        bad(&df(wrong));
    }
    assert_eq!(word(&df("04FFFFFFFF")), NOT_ENOUGH_MEMORY);
    good(&df("03000380"));
    assert_eq!(word(&df("03000381")), NOT_ENOUGH_MEMORY);
}

#[test]
fn the_template_around() {
    let command = |data: &str| {
        let data = bytes(data);
        let text = format!("00E00000{:02X}{}", data.len(), model::lines::hex(&data));
        run(&mut roomy(16), &text)
    };
    let objects = "82024121 83026F07 8A0105 8C0100 80020009";
    assert_eq!(command(&format!("6212{objects}")), SUCCESS);
    for breach in ["6112", "6211", "6213", "628112", "6292", "6312"] {
        assert_eq!(command(&format!("{breach}{objects}")), WRONG_DATA, "{breach}");
    }
    assert_eq!(command(&format!("6212{objects}00")), WRONG_DATA);
    for short in ["62", "6200", "00", "6202"] {
        assert_eq!(command(short), WRONG_DATA, "{short}");
    }
}

#[test]
fn the_longest_template() {
    let objects = "82024121 83026F07 8A0105 8C0100 80020009";
    let filled = |length: usize| {
        let filler = length - 0x12 - 2;
        format!("{objects}85{filler:02X}{}", "AA".repeat(filler))
    };
    good(&filled(0x7F));
    bad(&filled(0x80));
    bad(&format!("{objects}8580"));
}
