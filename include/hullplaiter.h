/* hullplaiter.h: the file layer of a test UICC on a card image, and a pool of file bodies, in buffers that the caller
 * lends.
 *
 * Link with libhullplaiter. Nothing to initialise, nothing to release.
 *
 * An image is 16 + 64 N bytes, N from 2 to 1023: 144 to 65488 bytes, with no alignment asked. hull_make makes one;
 * after that its bytes are the card's whole state, in version 3 together with those of its pool, so they may be copied,
 * stored, sent and mapped like any bytes.
 *
 * Pool. In version 3 the files have bodies. They lie in a second buffer, the pool, exactly as long as the root's total:
 * 1 to 65408 bytes, with no alignment asked. The image says where in it each body lies; the pool holds nothing but the
 * bytes. So image and pool belong together: copy, store and restore both, of the same moment. Bytes of the pool in no
 * body are not judged. A fresh pool therefore needs no clearing: hull_make takes none, and CREATE fills each new body.
 * The library cannot tell one pool of the right length from another; with that of another card, or of another moment,
 * the files have other contents.
 *
 * Lending. Every pointer is lent for the time of the call alone. The caller owns the memory before, during and after;
 * the library allocates nothing, keeps no pointer, no number and no other state between calls, writes no memory but
 * `image` of hull_make and hull_command, `pool` and `response` of hull_command and `numbers` of hull_command, hull_report
 * and hull_rule, and reads no byte past the length given.
 *  - A `const` buffer is not written, and during the call nobody else may write it.
 *  - A buffer that is not `const` is the call's alone: during the call nobody else may read or write it, and it may not
 *    overlap any other argument. So `image`, `pool`, `response` and `numbers` of hull_command overlap neither one another
 *    nor `command`. This holds of a pool that the call leaves alone, too.
 *  - A buffer of length 0 may have any pointer, also NULL. Otherwise the pointer must be valid for that many bytes.
 * Calls on different images, with different pools, may run on different threads at the same time, also with the same
 * command or rule. Calls that only read (hull_report, hull_rule, hull_sound) may run at the same time on one image and
 * one pool.
 *
 * Every call takes any bytes of any length, always returns, and its result depends on its arguments alone.
 *
 * Stack. A call takes at most HULL_STACK_BYTES of the calling thread's stack, its own frame and all below it; a thread
 * needs that much left when it calls. The library asks for no more, checks nothing and cannot refuse: with less the
 * system ends the process, or, where no guard page stands below the stack, memory below it is overwritten.
 *
 * Versions. An image has a version, 1 to 3, in its bytes 3 and 4, which the maker is told and no command changes. In
 * version 1 every rule is compact and has 1 to 16 bytes. In version 2 a rule is compact or expanded and has 1 to 30, in
 * version 3 1 to 28; in version 3 alone files have bodies, commands READ and UPDATE them, and a rule may be referred: kept
 * in a record of another file's body. All else is alike.
 *
 * Referred rules. The rule of a file of version 3 may be three bytes, the identifier of another file and the number of a
 * record: the rule that decides is then what this record holds at the moment of the command. So an UPDATE of it changes
 * what the next command may do with every file that is referred to it, and asks nothing of these files' own rules.
 *  - The file of that identifier is looked for in the DF that holds the ruled file, a DF's in the one above it, the
 *    root's in the root; then in each DF above. The nearest file of that identifier counts, whatever it is, and the search
 *    ends with it. Its life cycle and its own rule are not regarded.
 *  - It must be linear fixed and must not be the ruled file itself. The number is that of one of its records, 1 to the last.
 *  - The record holds an expanded rule of any length, and behind it only bytes FF, or none. A rule has at least one group,
 *    so that a record of bytes FF alone, as CREATE leaves it, holds none. An FF that is an SC byte belongs to the rule.
 * Where one of these does not hold, the search denies: no sets open any command that asks this rule (HULL_CLOSED). Nothing
 * else is wrong then: CREATE, the maker and soundness do not look whether there is such a file. hull_rule tells which bytes
 * decide.
 *
 * Answers (0 to 4 are of 01, "Making and reporting"; 5 and 6 are of 02, Tickets 2 and 4):
 *   0  done; for a command its word tells
 *   1  the image is not sound (command, report, rule): word 0000, numbers 0, image, pool and response as they came
 *   2  maker: the length is not 16 + 64 N with N 2 to 1023, or the version is unknown: buffer as it came
 *   3  maker: the total is not 1 to 64 (N - 1): buffer as it came
 *   4  maker: the form is unknown or unfit for the version, or the rule has no byte, too many for the version, or is
 *      not well formed, or it is referred and has not three bytes: buffer as it came
 *   5  command: the response is shorter than the data: word 0000, numbers 0, image, pool and response as they came
 *   6  command and rule, in version 3: the pool is not as long as the root's total: word 0000, numbers 0, image, pool and
 *      response as they came
 * The maker checks 2, 3, 4 in that order. A command finds 1 first, then 6, whatever the command is, and 5 last; so does
 * hull_rule with 1 and 6, whatever the slot is. */
#ifndef HULLPLAITER_H
#define HULLPLAITER_H

#include <stddef.h>
#include <stdint.h>

#ifdef __cplusplus
extern "C" {
#endif

/* Sizes in bytes: the header, one record, a rule in it at most in any version, in version 1, in version 3, and a referred
 * one always; slots of an image at least and at most; the longest pool that an image can ask for. */
#define HULL_HEADER_BYTES 16u
#define HULL_RECORD_BYTES 64u
#define HULL_RULE_MOST 30u
#define HULL_RULE_MOST_1 16u
#define HULL_RULE_MOST_3 28u
#define HULL_RULE_REFERRED 3u
#define HULL_SLOTS_LEAST 2u
#define HULL_SLOTS_MOST 1023u
#define HULL_IMAGE_BYTES(slots) (HULL_HEADER_BYTES + HULL_RECORD_BYTES * (size_t)(slots))
#define HULL_POOL_MOST 65408u

/* Data that a command answers at most, so that a response of this length is never too short: a READ with Le 00. A
 * template has at most 67 bytes, which suffice in versions 1 and 2. That is a DF's with the longest name and the longest
 * rule, in version 2: 62 LL takes 2 bytes, 82 takes 4, 83 takes 4, 84 takes 18, 8A takes 3, 8C or AB takes 32 and 81 takes
 * 4. An EF's is shorter, at most 51: its 82 takes 6 where it has records, but it has no name, and a DF has no records. In
 * version 1 both are 14 bytes shorter, in version 3 they are 2 bytes shorter. */
#define HULL_RESPONSE_MOST 256u

/* How many numbers hull_command, hull_report and hull_rule write. */
#define HULL_COMMAND_NUMBERS 3u
#define HULL_REPORT_NUMBERS 4u
#define HULL_RULE_NUMBERS 3u

/* Stack that a call takes at most. The compiled library takes 39840 bytes; the rest is left for other builds of it. */
#define HULL_STACK_BYTES 49152u

/* What card the maker makes: today the version of its image. A later version of this library joins a variant to it in
 * the higher bits; a value that is none of these three is unknown today. */
#define HULL_VERSION_1 1u
#define HULL_VERSION_2 2u
#define HULL_VERSION_3 3u

/* The form of a rule: compact is the value of tag 8C, expanded that of tag AB, referred that of tag 8B, in version 3 only:
 * the two bytes of a file's identifier and a record number; see "Referred rules". */
#define HULL_COMPACT 0u
#define HULL_EXPANDED 1u
#define HULL_REFERRED 2u

/* The answers. An unknown kind of card is answer 2 as well, and has a name of its own for it. */
#define HULL_DONE 0u
#define HULL_NOT_SOUND 1u
#define HULL_BAD_LENGTH 2u
#define HULL_BAD_KIND HULL_BAD_LENGTH
#define HULL_BAD_TOTAL 3u
#define HULL_BAD_RULE 4u
#define HULL_SHORT_RESPONSE 5u
#define HULL_WRONG_POOL 6u

/* What a security refusal lacks: numbers[1] of hull_command. Lacking: the command is refused, and with other sets its rule
 * would let it pass. Closed: no sets do, whatever is authenticated; so it is where the search for a referred rule denies.
 * They come with answer HULL_DONE and word 6982, one of the two each time, and with nothing else. A DELETE asks two rules,
 * of which one suffices: it is lacking if one of them is, and closed if both are. Channels and life cycles are no part of
 * it, nor is what a later UPDATE of a rule file would open.
 *
 * The number came later than its place: in earlier versions of this library it is 0 on every call, also with 6982. What was
 * compiled for the header of such a version goes on working as it is; the array has as many entries as it had. */
#define HULL_NO_SECURITY_REFUSAL 0u
#define HULL_LACKING 1u
#define HULL_CLOSED 2u

/* Where the rule that decides on a file stands: numbers[0] of hull_rule. */
#define HULL_NOWHERE 0u
#define HULL_IN_IMAGE 1u
#define HULL_IN_POOL 2u

/* Makes a fresh card in image[0 .. image_length): the root 3F00 with descriptor 38, life cycle 05, that total and that
 * rule, no name; the root current, no EF; all else free. In version 3 the pool that hull_command is lent beside it has
 * `total` bytes; the maker takes no pool, and what a fresh one holds does not matter.
 *
 * kind    HULL_VERSION_1, HULL_VERSION_2 or HULL_VERSION_3
 * total   1 to 64 (N - 1): what the root's direct children may use, each its size and 64 bytes
 * form    of the root's rule: HULL_COMPACT, in versions 2 and 3 also HULL_EXPANDED, in version 3 also HULL_REFERRED
 * rule    the root's rule, without tag and length, 1 to HULL_RULE_MOST_1 bytes in version 1, to HULL_RULE_MOST in version
 *         2, to HULL_RULE_MOST_3 in version 3; it is copied into the image. A compact one is groups of an AM byte with b8
 *         clear and one SC byte for each of its bits. An expanded one is groups of an AM_DO, 80 01 AM with b8 of AM clear,
 *         and one or more SC_DOs, of which one suffices: 90 00 always, 97 00 never, 9E 01 SC an SC byte, A0 LL one of at
 *         least two SC_DOs inside, AF LL all of at least two; at most four A0 or AF stand inside one another, and lengths
 *         are 00 to 7F. Groups of either form are alternatives. A referred one has HULL_RULE_REFERRED bytes, which are not
 *         judged further. As a fresh card has no file to refer to, it closes the root: nothing can be created there
 * returns HULL_DONE, and every byte of the image is written, whatever was there; or HULL_BAD_LENGTH (HULL_BAD_KIND),
 *         HULL_BAD_TOTAL or HULL_BAD_RULE, and the buffer is as it came */
uint32_t hull_make(uint8_t *image, size_t image_length, uint32_t kind, uint32_t total, uint32_t form,
                   const uint8_t *rule, size_t rule_length);

/* Carries out one command on an image and its pool. `command` is the command as sent: CLA INS P1 P2, then Lc and data
 * where it has them, then Le where data is wanted. It may be of any length, also 0 (6700).
 *
 * pool
 *         the bodies of the image's files. In version 3 it must be exactly as long as the root's total, with every command,
 *         also with one that has nothing to do with bodies. Versions 1 and 2 have no bodies: there it may be of any length,
 *         also NULL with length 0, and no command reads or writes it.
 *         Only UPDATE, CREATE and DELETE that are answered 9000 change it; see "Bodies" below
 * response
 *         where data is written, of any length, also 0; HULL_RESPONSE_MOST bytes suffice for every command. A SELECT with
 *         P1 P2 00 04 that is answered 9000, 6283 or 6285 has data, the template of the file that it selected, and so has a
 *         READ that is answered 9000, what it read. Data stands at the start, and the bytes past it stay as they came.
 *         Every other command, every refusal and every other answer leaves the whole response as it came
 * messaging, external, user
 *         what has been authenticated: bit n of each set (bit 0 the lowest) is on if the secure messaging, the external
 *         authentication, the user authentication of environment n is done; n = 15 never counts
 * channels
 *         a bit for each open channel, of which only bits 1 to 3 count: 0 if no other channel than the basic one is open
 * numbers
 *         HULL_COMMAND_NUMBERS numbers that the caller lends, each written on every call:
 *         numbers[0]  how many bytes of data were written to the response; 0 if there are none
 *         numbers[1]  HULL_LACKING or HULL_CLOSED with answer HULL_DONE and word 6982; else HULL_NO_SECURITY_REFUSAL
 *         numbers[2]  0; kept for a later version, which tells there how many bytes were moved
 * returns 65536 times the answer, plus the word: HULL_ANSWER and HULL_WORD take them apart.
 *         Answer HULL_DONE: the word tells. With 9000 the command has had its effect on image and pool; with 6283 or 6285
 *         the file is selected; with any other word every byte of image and pool is as it came.
 *         Answer HULL_NOT_SOUND: the word is 0000, every byte of image, pool and response as it came.
 *         Answer HULL_WRONG_POOL: the same. The image is sound, and its pool has another length.
 *         Answer HULL_SHORT_RESPONSE: the same, and nothing is selected. The SELECT or READ had no other fault, and
 *         succeeds with a response that is long enough.
 *         A sound image is sound afterwards, and asks for a pool of the same length.
 *
 * The words, in the order in which 01's table judges a command:
 *   6700  under 4 bytes; or the length does not fit the command: CREATE and UPDATE 5 + Lc with Lc at least 1, READ 5,
 *         DELETE 7 with Lc 2, the others 4; SELECT by its P2: with 0C 7 bytes with Lc 2, with 04 8 bytes with Lc 2 and Le 00
 *   6985  CLA 01 to 03; the card is terminated; CREATE, DELETE or TERMINATE while another channel is open; or the life
 *         cycle of the file, or of one above it, does not allow the command: READ and UPDATE want the file activated and
 *         nothing above it terminated
 *   6E00  any other CLA but 00
 *   6D00  an INS that is not built; in versions 1 and 2 READ and UPDATE too
 *   6B00  P1 P2 not 00 00 (SELECT: neither 00 0C, without data, nor 00 04, with the template; READ and UPDATE BINARY: from
 *         80 00 on; READ and UPDATE RECORD: P2 not 04)
 *   6A80  CREATE: wrong data. The life cycle in object 8A may be 01 (creation), 03 (initialisation), 04 or 06 (deactivated),
 *         05 or 07 (activated) and is kept as given; ACTIVATE writes 05, DEACTIVATE 04, TERMINATE 0C. The rule stands in
 *         object 8C, or in versions 2 and 3 in AB, or in version 3 in 8B, in one of them; AB in version 1, 8B in versions 1
 *         and 2, 8B of other than three bytes, and a rule that is malformed or too long for the version, is wrong data
 *   6A82  no such file
 *   6986  TERMINATE EF, READ or UPDATE while no EF is current
 *   6982  the rule does not allow the command with these sets. CREATE asks b3 (a DF) or b2 (an EF) of the current DF's rule,
 *         DELETE b7 of the file's or b1 of the current DF's; of the file's own TERMINATE asks b6, ACTIVATE b5, DEACTIVATE b4,
 *         UPDATE b2, READ b1, and TERMINATE CARD USAGE b6 of the root's. A referred rule is read from its record as this
 *         command comes, and allows nothing where the search denies. numbers[1] tells whether other sets would allow it
 *   6A89  CREATE: the identifier is a sibling's, the current DF's, or one above
 *   6A8A  CREATE: the name stands on the card already
 *   6A84  CREATE: not enough memory
 *   6981  READ or UPDATE BINARY of a file with records, READ or UPDATE RECORD of one without
 *   6B00  READ or UPDATE BINARY: the start is at the end of the body or past it
 *   6A83  READ or UPDATE RECORD: the record number is 0 or past the last
 *   6700  READ or UPDATE: bytes past the end of the body are asked for or given, or another number of bytes than a record has
 *   9000  done
 *   6283  SELECT: done, the file is deactivated
 *   6285  SELECT: done, the file is terminated
 *
 * The template is 62 LL and then these objects, each a tag, a length of one byte and a value:
 *   82  the descriptor, 21, and the record length in two bytes where the file has records
 *   83  the identifier, two bytes
 *   84  the name, where the file has one
 *   8A  the life cycle, the byte that the card holds, 0C among them
 *   8C  the access rule if it is compact, AB if it is expanded, or 8B if it is referred, the three bytes of the reference
 *   80  an EF's size, or 81 a DF's total, two bytes
 * With a C6 behind 81, which a card does not keep, it is the data of a CREATE that makes the same file again on a card of
 * its version, unless the file is the root or terminated. Where its body starts is not told, and what it holds neither.
 *
 * READ and UPDATE, in version 3, are about the current EF. READ asks b1 of its rule, UPDATE b2:
 *   READ BINARY    00 B0 P1 P2 Le        bytes of a transparent EF, from the start P1 P2 on, a number under 8000
 *   UPDATE BINARY  00 D6 P1 P2 Lc data   the same bytes written
 *   READ RECORD    00 B2 P1 04 Le        record P1 of a linear fixed or cyclic EF, counted from 1; Le is the record length
 *   UPDATE RECORD  00 DC P1 04 Lc data   the same record written
 * Le 00 asks for 256 bytes, so for a record it is always 6700. A READ gives all that it asks for or is refused; it never
 * gives less. The records of a cyclic EF keep their numbers: an UPDATE writes over the record that it names.
 *
 * Bodies. An EF of version 3 has a body of its size; its record says in its last two bytes where in the pool it starts.
 * CREATE of an EF puts the new body into the lowest gap that fits, a gap being a run of bytes in no body, the one behind
 * the last body too, and fills it with FF. If no gap fits, all bodies are moved down first, in the order of their starts,
 * so that they lie without a gap from 0 on, and the new one behind them. What they hold stays; bytes that belonged to a
 * body before and to none afterwards become 00. So gaps never cause 6A84. DELETE makes every byte of the deleted bodies
 * 00. Other bytes of the pool stay as they are, whatever they hold. */
uint32_t hull_command(uint8_t *image, size_t image_length, uint8_t *pool, size_t pool_length,
                      const uint8_t *command, size_t command_length,
                      uint8_t *response, size_t response_length,
                      uint16_t messaging, uint16_t external, uint16_t user, uint8_t channels,
                      uint32_t numbers[HULL_COMMAND_NUMBERS]);

/* The two parts of what hull_command returns. */
#define HULL_ANSWER(result) ((uint32_t)(result) >> 16)
#define HULL_WORD(result) ((uint16_t)((uint32_t)(result)&0xFFFFu))

/* Reports on the current DF. `numbers` is HULL_REPORT_NUMBERS numbers that the caller lends, each written every time:
 *   numbers[0]  its total
 *   numbers[1]  its room: the total less size and 64 of each direct child
 *   numbers[2]  its direct children, DFs and EFs
 *   numbers[3]  all files beneath it, DFs and EFs, itself not among them
 *
 * returns HULL_DONE; or HULL_NOT_SOUND with all of them 0. It works on a terminated card too. */
uint32_t hull_report(const uint8_t *image, size_t image_length, uint32_t numbers[HULL_REPORT_NUMBERS]);

/* Tells where the rule that decides on a file stands at this moment: that of the file in `slot`, 0 the root's. A compact or
 * expanded rule stands in the file's own record; for a referred one the search is carried out as a command would. It only
 * reads.
 *
 * pool    as for hull_command: in version 3 as long as the root's total, in versions 1 and 2 of any length
 * slot    any number
 * numbers HULL_RULE_NUMBERS numbers that the caller lends, each written on every call:
 *         numbers[0]  HULL_IN_IMAGE, HULL_IN_POOL, or HULL_NOWHERE: the search denies, or the slot is free or past the last
 *         numbers[1]  where in the image or in the pool the rule's first byte stands
 *         numbers[2]  how many bytes it has, without tag, length and padding
 *         In the image the rule has the form that its record tells, in its byte 3; in the pool it is expanded. With
 *         HULL_NOWHERE all three are 0
 * returns HULL_DONE; or HULL_NOT_SOUND or HULL_WRONG_POOL with all of them 0. It works on a terminated card too, and with
 *         every slot. */
uint32_t hull_rule(const uint8_t *image, size_t image_length, const uint8_t *pool, size_t pool_length,
                   uint32_t slot, uint32_t numbers[HULL_RULE_NUMBERS]);

/* Whether the bytes are a sound image: 1 or 0. The other calls look for themselves; this is for a caller who wants to know
 * before. In version 3 a sound image has its bodies apart from one another and within a pool of the root's total; no pool
 * is needed to say so. */
uint32_t hull_sound(const uint8_t *image, size_t image_length);

#ifdef __cplusplus
}
#endif

#endif
