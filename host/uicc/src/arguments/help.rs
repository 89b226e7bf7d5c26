//! The help text.

pub const HELP: &str = "\
uicc: a test UICC's files, on the proved card

  uicc run SCRIPT [--image IMAGE] [card] [state]
        plays a script on a fresh card, or on IMAGE, which is saved afterwards;
        - is standard input. Below a command's line stands what it answers: a
        file's template (SELECT with P2 04) in words, what READ gives in hex
        and characters; and, where a rule refuses it (6982), whose rule that
        is, which record keeps it or why none is found, what it asks for, and
        what of that is missing
  uicc show IMAGE
        prints the tree of files, each directory's room as a bar, where in the
        pool the bodies lie, and of each rule where it stands and what it allows
  uicc read IMAGE PATH [--from N] [--count N] [--record N] [--output FILE]
            [--force] [state]
        reads a file's body, or part of it, and prints it in hex and
        characters; with --output its bytes as they are, to a new file or,
        by -, to standard output; --force replaces a file
  uicc write IMAGE PATH FILE [--from N] [--record N] [state]
        writes the bytes of FILE, or of standard input (-), into a file's body,
        all of them or none; IMAGE is saved afterwards
  uicc export IMAGE
        prints a script that makes the same files again, with what they hold,
        on a fresh card; its first lines say on which. Files that keep rules
        come before those that they rule
  uicc new IMAGE [card] [--force]
        writes the image of a fresh card; --force replaces a file
  uicc rule RULE
        explains an access rule, or says where and why it is malformed

A SCRIPT has one command a line, in hex; blanks do not matter, and # begins a
comment. The whole script is read before its first command is played.
An IMAGE is locked while it is used: who comes second waits and says for whom.
It is saved as a whole or not at all, with its owner, group and mode. That of a
card of version 3 has the pool behind it, in the same file.
A PATH has the identifiers of the directories down to a file, as 7F10/6F07; 3F00
may stand first. Neither read nor write changes what is current on the card.
Without --from, --count and --record a whole body is read; one with records is
read and written record by record, the bytes being its records one after the
other. Bytes count from 0, records from 1.
After -- nothing is an option.

card, for a fresh one:
  --version N       1; 2, which takes expanded rules and longer ones; or 3,
                    whose files have bodies too, which may keep rules (3)
  --slots N         slots for files, the root among them, 2 to 1023 (64)
  --total BYTES     the root's total, at most 64 for each slot but the root's
                    (that); on version 3 also the length of the pool
  --rule RULE       the root's access rule (7F00000000000000, all allowed)

A RULE is hex: a compact rule (tag 8C) or, on versions 2 and 3, an expanded one
(tag AB), with tag and length or without. It has 1 to 16 bytes on version 1, to
30 on version 2, to 28 on version 3. On version 3 it may be a reference (tag 8B)
of 3 bytes, the identifier of a linear fixed file and the number of a record
that holds an expanded rule, with FF behind it; with tag and length only. As
rule of the root of a fresh card, which has no such file, it allows nothing.
Its first byte tells which: 8C, AB and 8B begin an object; 80 begins an expanded
rule without tag and length, and a byte below 80 a compact one, since b8 of its
AM byte is clear.

state, the conditions that hold while commands are played:
  --messaging HEX   environments with secure messaging, 16 bits (FFFF)
  --external HEX    environments with external authentication (FFFF)
  --user HEX        environments with user authentication (FFFF)
  --channels HEX    open channels, bits 1 to 3 (00)

Exit status: 0 done, for run also when the card refused commands; 1 a file, an
image, a script, a path or the rule of uicc rule is wrong, or the card refused
what uicc read or write asked for, or the output could not be written, and
nothing was saved; 2 the command line is wrong; 3 the file WAS saved, but the
output could not be written: do not play the script again; 4 export: the
script is printed, but it does not make all of the card again, and standard
error says what is lost.
";
