//! `uicc run`: a template that SELECT answers is told in words.

use crate::folder::Folder;

/// A named directory that is deactivated, with an internal cyclic file in it.
const SCRIPT: &str = "\
00E0000022 6220 82023821 83027F20 8405A000000087 8A0105 8C0518B2000211 81020080 C60100
00E0000018 6216 82044E21000A 83026F3A 8A0103 8C03031300 8002000A
00A4000402 7F20 00
00040000
00A4000402 3F00 00
00A4000402 7F20 00
00A4000402 6F3A 00
00A4000C02 6F3A
00A4000402 6F3A
00A4000402 6FFF 00
";

const TOLD: &str = "\
\x20  1  CREATE FILE 7F20      9000  done
   2  CREATE FILE 6F3A      9000  done
   3  SELECT 7F20           9000  done
        data        621D8202382183027F208405A0000000878A01058C0518B200021181020080
        identifier  7F20
        kind        directory, descriptor 38
        total       128 bytes, announced for the files in it
        life cycle  activated (05)
        name        A000000087
        rule (8C)   DELETE, TERMINATE, CREATE DF, DELETE CHILD: never; \
ACTIVATE: external authentication 2
                      and user authentication 2; DEACTIVATE: always; \
CREATE EF: user authentication 1
   4  DEACTIVATE FILE       9000  done
   5  SELECT 3F00           9000  done
        data        62198202382183023F008A01058C087F0000000000000081020FC0
        identifier  3F00
        kind        directory, descriptor 38
        total       4032 bytes, announced for the files in it
        life cycle  activated (05)
        rule (8C)   DELETE, TERMINATE, ACTIVATE, DEACTIVATE, CREATE DF, CREATE EF, \
DELETE CHILD: always
   6  SELECT 7F20           6283  selected; the file is deactivated
        data        621D8202382183027F208405A0000000878A01048C0518B200021181020080
        identifier  7F20
        kind        directory, descriptor 38
        total       128 bytes, announced for the files in it
        life cycle  deactivated (04)
        name        A000000087
        rule (8C)   DELETE, TERMINATE, CREATE DF, DELETE CHILD: never; \
ACTIVATE: external authentication 2
                      and user authentication 2; DEACTIVATE: always; \
CREATE EF: user authentication 1
   7  SELECT 6F3A           9000  done
        data        621682044E21000A83026F3A8A01038C030313008002000A
        identifier  6F3A
        kind        internal EF, descriptor 4E
        structure   cyclic, 1 record of 10 bytes
        size        10 bytes
        life cycle  initialisation (03)
        rule (8C)   DELETE, TERMINATE, ACTIVATE, DEACTIVATE, WRITE: never; \
UPDATE: user authentication 3; READ: always
   8  SELECT 6F3A           9000  done
   9  SELECT 6F3A           6700  wrong length
  10  SELECT 6FFF           6A82  file not found
";

#[test]
fn a_template_is_told_below_its_line() {
    let folder = Folder::new("templates");
    folder.write("script", SCRIPT);
    let out = folder.done(&["run", "script"]);
    let lines: Vec<_> = out.lines().skip(1).collect();
    assert_eq!(lines[..lines.len() - 1], TOLD.lines().collect::<Vec<_>>(), "{out}");
    assert!(lines[lines.len() - 1].starts_with("current directory: total 128"), "{out}");
}
