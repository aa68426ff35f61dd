/* Dehlbazin: the refs of a site's aisle layouts, in one region of bytes that the caller lends. For C and for C++.
 *
 * docs/SPEC.md says what the calls mean, docs/ABI.md how to use them, docs/LAYOUT.md what stands in the region,
 * docs/PACKED-TEXT.md what stands in the packed table's text, and docs/SETTINGS.md what stands in a settings record.
 *
 * These are the fifteen calls of docs/SPEC.md, each of which takes the region first, then its own arguments, then the answer
 * record; then the three of a list that arrives in fragments, of which one takes a region; and at the end the four of
 * docs/SETTINGS.md, of which one takes a region. Each run of bytes is a pointer and a length.
 * Each call returns a number: DEHLBAZIN_DONE, or the reason of a refusal. A refused call changes no byte of the region, or of the
 * buffer that it was to write into, but for one: dehlbazin_close_receiver leaves a fresh receiver, refused or not, unless it is the
 * receiver itself or the answer record that is refused. Two numbers are neither: with DEHLBAZIN_NO_COMMITTER and DEHLBAZIN_USED_UP
 * dehlbazin_commit has stopped on its way, and what it wrote until then stays.
 *
 * The answer record has DEHLBAZIN_ANSWER_SIZE bytes: 16 places of 8, big-endian, which dehlbazin_place reads. A call that is given
 * a record of that size fills all of it, with 0 in each place that it does not use. A call that is given any other size
 * writes nothing at all and returns DEHLBAZIN_BAD_REGION.
 *
 * Every call that takes a region tests it whole before it does anything. It returns DEHLBAZIN_BAD_REGION, with an answer of zeros,
 * if the length is not DEHLBAZIN_REGION_SIZE or the bytes are no good store. (dehlbazin_start and dehlbazin_start_with_settings
 * look at the length alone. dehlbazin_close_receiver tests the receiver first, and a good one is fresh then even where the region
 * is refused.)
 *
 * Every number is passed with 64 bits. One that is too large is refused, never shortened: name 65536 + k is not name k.
 *
 * What no call can test, so that the caller must see to it:
 *   - that each pointer is good for its length. (With length 0 it may be null. One to bytes need not be aligned. The two to
 *     uint64_t, which dehlbazin_write_settings takes, are aligned as a uint64_t is.)
 *   - that all that is lent to one call lies apart: region, name, list, text, receiver, fragment, settings record, buffer,
 *     numbers, lengths and answer. The bytes that dehlbazin_name_bytes points out lie in the region, so a name got from it is copied
 *     before it is passed to dehlbazin_add_name.
 *   - that calls on one region, or on one receiver, come one after the other. (Calls on different ones may come at the same time:
 *     no call has state of its own, or keeps a pointer when it returns.)
 */
#ifndef DEHLBAZIN_H
#define DEHLBAZIN_H

#include <stddef.h>
#include <stdint.h>

/* ---- the version of this interface: of this header and of the archive's entries. Each part is below 1000, so that a later
 * version is a greater number: 0.10.0 is 10000, and 1.2.3 would be 1002003. #if can test it. */

#define DEHLBAZIN_VERSION_MAJOR 0
#define DEHLBAZIN_VERSION_MINOR 10
#define DEHLBAZIN_VERSION_PATCH 0
#define DEHLBAZIN_VERSION                                                                                                    \
    (DEHLBAZIN_VERSION_MAJOR * 1000000 + DEHLBAZIN_VERSION_MINOR * 1000 + DEHLBAZIN_VERSION_PATCH)

/* ---- the version of the region's layout (docs/LAYOUT.md), a count of its own: byte 0 of every good region. */

#define DEHLBAZIN_LAYOUT_VERSION 1

/* ---- sizes */

#define DEHLBAZIN_REGION_SIZE 49549
#define DEHLBAZIN_ANSWER_SIZE 128
#define DEHLBAZIN_RECEIVER_SIZE 870

/* ---- the numbers that calls return. 4 to 14 and 25 are given by prepare, and by closing a receiver, alone, and 5 by nothing: no
 * list comes to more than 160 rows. 16 and 17 are given by commit alone, which has then stopped before a write: they are no
 * refusals. 26 is given by taking a fragment alone, 27 by reading a text alone, 32 by writing one alone, and 23, 24 and 33 by the
 * four calls of the settings record alone. The numbers between are given by nothing. */

#define DEHLBAZIN_DONE 0
#define DEHLBAZIN_BAD_REGION 1                   /* the region or the receiver is no good one, or the answer has the wrong size */
#define DEHLBAZIN_MALFORMED 2                    /* an edit list, a mode, a setting, a kind of lock or a committer is malformed */
#define DEHLBAZIN_NOT_REGISTERED 3               /* no name has that number, which comes back whole */
#define DEHLBAZIN_REFERENCE_CYCLE 4              /* links are still followed in a fifth round */
#define DEHLBAZIN_TOO_MANY_ROWS 5                /* more than 160 rows */
#define DEHLBAZIN_MULTIPLE_EDITS 6               /* two rows have one name */
#define DEHLBAZIN_PACKED_TRANSACTION_ACQUIRE 7   /* the packed table's lock is foreign */
#define DEHLBAZIN_LOCK_ACQUIRE 8                 /* a name's lock is foreign */
#define DEHLBAZIN_DELETE_REFERENCE_MUST_EXIST 9  /* a delete that expects something finds nothing */
#define DEHLBAZIN_MUST_NOT_EXIST 10              /* an update that expects nothing finds something else than its target */
#define DEHLBAZIN_MUST_EXIST 11                  /* an update that expects something finds nothing */
#define DEHLBAZIN_REFERENCE_OUT_OF_DATE 12       /* another value than the expected one is there */
#define DEHLBAZIN_DELETE_MUST_NOT_EXIST 13       /* a delete that expects nothing */
#define DEHLBAZIN_LOG_FULL 14                    /* the log would have more than 1,024 lines */
#define DEHLBAZIN_WRONG_STATE 15                 /* a transaction is prepared and must not be, or the other way round */
#define DEHLBAZIN_NO_COMMITTER 16                /* commit stopped before a log line that has no committer */
#define DEHLBAZIN_USED_UP 17                     /* commit stopped with its allowance used up */
#define DEHLBAZIN_BAD_NAME 18                    /* the bytes are no name */
#define DEHLBAZIN_NAMES_FULL 19                  /* a new name, and 256 are held */
#define DEHLBAZIN_WRONG_LOCK 20                  /* placing a lock that is not free, or lifting one that is not foreign */
#define DEHLBAZIN_BAD_LOAD 21                    /* a value that cannot be loaded there */
#define DEHLBAZIN_NOTHING_THERE 22               /* there is no such log line, row or committer */
#define DEHLBAZIN_MALFORMED_RECORD 23            /* a settings record is malformed, or settings are that no record can hold */
#define DEHLBAZIN_UNKNOWN_VERSION 24             /* a settings record has a version that is not known */
#define DEHLBAZIN_NAME_CONFLICT 25               /* a name above or beneath the row's has a loose value, or would get one */
#define DEHLBAZIN_RECEIVER_FULL 26               /* a fragment is longer than the room that is left */
#define DEHLBAZIN_MALFORMED_LINE 27              /* a line of a packed table's text is malformed */
#define DEHLBAZIN_TEXT_TOO_LONG 32               /* the packed table's text is longer than the buffer */
#define DEHLBAZIN_SHORT_BUFFER 33                /* the settings record is longer than the buffer */

/* ---- settings: which names get log lines (docs/SPEC.md, due lines) */

#define DEHLBAZIN_SETTING_NEVER 0
#define DEHLBAZIN_SETTING_NORMAL 1
#define DEHLBAZIN_SETTING_ALWAYS 2

/* ---- kinds of a value. A loose value may be loaded with all four, a packed one with none or object. Reading a name, and
 * the targets of a row, give none, object or link. The number beside it is 0 with none and broken, an object's with
 * object, and a name's with link.
 * A name lies beneath another, which is above it, if it begins with that one and a '/'. At most one of two such names has a loose
 * value at a time, a broken one being one too. */

#define DEHLBAZIN_KIND_NONE 0
#define DEHLBAZIN_KIND_OBJECT 1
#define DEHLBAZIN_KIND_LINK 2
#define DEHLBAZIN_KIND_BROKEN 3

/* ---- where a value was found, or that none was, as reading a name and reading a row answer it. Reading a name always sees what
 * is packed. Prepare sees it only if it opened the packed table, and a row says what prepare saw. A packed value that is not seen
 * counts as none. */

#define DEHLBAZIN_PLACE_LOOSE 1                /* the loose value is an object or a link; what is packed does not matter */
#define DEHLBAZIN_PLACE_PACKED 2               /* there is no loose value, and an object is packed */
#define DEHLBAZIN_PLACE_PACKED_BEHIND_BROKEN 3 /* the loose value is broken, and an object is packed */
#define DEHLBAZIN_PLACE_ABSENT 4               /* there is no loose value, and nothing is packed */
#define DEHLBAZIN_PLACE_ABSENT_BEHIND_BROKEN 5 /* the loose value is broken, and nothing is packed */

/* ---- what a foreign lock is placed on. There is one packed table: the number beside it is not looked at, whatever it is. */

#define DEHLBAZIN_LOCKABLE_NAME 0         /* a name, by its number */
#define DEHLBAZIN_LOCKABLE_PACKED_TABLE 1 /* the packed table */

/* ---- packing modes of a transaction */

#define DEHLBAZIN_MODE_DELETIONS 1           /* only deletes change the packed table */
#define DEHLBAZIN_MODE_UPDATES 2             /* updates to objects are packed too */
#define DEHLBAZIN_MODE_UPDATES_REMOVE_LOOSE 3 /* and their loose values are removed */

/* ---- what an edit and a row say: their kind, what they write, and what they expect to find */

#define DEHLBAZIN_ROW_UPDATE 1
#define DEHLBAZIN_ROW_DELETE 2

#define DEHLBAZIN_LOG_AND_REFERENCE 0
#define DEHLBAZIN_LOG_ONLY 1

#define DEHLBAZIN_EXPECTED_ANY 0
#define DEHLBAZIN_EXPECTED_MUST_EXIST 1
#define DEHLBAZIN_EXPECTED_MUST_NOT_EXIST 2
#define DEHLBAZIN_EXPECTED_MUST_EXIST_AND_MATCH 3
#define DEHLBAZIN_EXPECTED_EXISTING_MUST_MATCH 4

/* ---- an edit list, which prepare takes: a header, and behind it records of one size, one for each edit. Numbers are
 * big-endian. Update of name 0 through its link to object 7, with message 3, is
 *   01 00 1C 01 | 01 01 00 00 00 | 00 0000000000000000 | 01 0000000000000007 | 0000 | 0003 */

#define DEHLBAZIN_LIST_VERSION 1
#define DEHLBAZIN_LIST_HEADER_SIZE 4
#define DEHLBAZIN_LIST_EDIT_SIZE 27
#define DEHLBAZIN_LIST_MOST_EDITS 32
#define DEHLBAZIN_LIST_MOST_BYTES (DEHLBAZIN_LIST_HEADER_SIZE + DEHLBAZIN_LIST_EDIT_SIZE * DEHLBAZIN_LIST_MOST_EDITS)

/* offsets in the header */
#define DEHLBAZIN_LIST_AT_VERSION 0 /* 1 byte */
#define DEHLBAZIN_LIST_AT_LENGTH 1  /* 2 bytes: how many bytes follow these two, 1 and 27 for each edit */
#define DEHLBAZIN_LIST_AT_COUNT 3   /* 1 byte: how many edits, 0 to 32 */

/* offsets in a record. The number of a name must fit in its 2 bytes: one above 65535 is no name's, and shortened it would be
 * another's, which no call can tell. */
#define DEHLBAZIN_EDIT_AT_KIND 0            /* 1 byte: DEHLBAZIN_ROW_UPDATE or DEHLBAZIN_ROW_DELETE */
#define DEHLBAZIN_EDIT_AT_DEREF 1           /* 1 byte: 1 to follow the name's link, else 0 */
#define DEHLBAZIN_EDIT_AT_LOG 2             /* 1 byte: DEHLBAZIN_LOG_.. */
#define DEHLBAZIN_EDIT_AT_FORCE 3           /* 1 byte: 1 to log any name unless the setting is never, else 0; 0 with delete */
#define DEHLBAZIN_EDIT_AT_EXPECTED 4        /* 1 byte: DEHLBAZIN_EXPECTED_.. */
#define DEHLBAZIN_EDIT_AT_EXPECTED_KIND 5   /* 1 byte: object or link with the two expectations that match, else none */
#define DEHLBAZIN_EDIT_AT_EXPECTED_NUMBER 6 /* 8 bytes: an object's with object, a name's with link, 0 with none */
#define DEHLBAZIN_EDIT_AT_NEW_KIND 14       /* 1 byte: object or link with update, none with delete */
#define DEHLBAZIN_EDIT_AT_NEW_NUMBER 15     /* 8 bytes: as with the expected number */
#define DEHLBAZIN_EDIT_AT_NAME 23           /* 2 bytes */
#define DEHLBAZIN_EDIT_AT_MESSAGE 25        /* 2 bytes; 0 with delete */

/* ---- a receiver, which collects an edit list that arrives in fragments: how many bytes it holds, in 2 bytes, big-endian; these
 * bytes; and zeros. It has room for the longest list, and needs no region before it is closed. A good one is what accepted
 * fragments leave, and nothing else: one with a count above DEHLBAZIN_LIST_MOST_BYTES, or with another byte than 0 behind what it
 * holds, is none. */

#define DEHLBAZIN_RECEIVER_AT_COUNT 0 /* 2 bytes */
#define DEHLBAZIN_RECEIVER_AT_BYTES 2 /* DEHLBAZIN_LIST_MOST_BYTES of them */

/* ---- the packed table as text, in lines as git's packed-refs file has them: 40 lower-case hex digits, of which the first 24 are
 * zeros, a space, the name, a line feed. docs/PACKED-TEXT.md has its grammar. */

#define DEHLBAZIN_PACKED_TEXT_DIGITS 40        /* of an object's number */
#define DEHLBAZIN_PACKED_TEXT_MOST_BYTES 27136 /* of a text that is written: a buffer of so many bytes is never too short */

/* ---- a settings record, which a site keeps between runs: its log setting, its usual mode, its committers and its site number.
 * docs/SETTINGS.md has its bytes. */

#define DEHLBAZIN_SETTINGS_VERSION_1 1 /* has no place for a site: it is written for site 0 alone, and reads as site 0 */
#define DEHLBAZIN_SETTINGS_VERSION_2 2 /* has one. A reader that knows this version knows version 1 too */

#define DEHLBAZIN_SETTINGS_MOST_COMMITTERS 16
#define DEHLBAZIN_SETTINGS_MOST_NAME_BYTES 32 /* of a committer's name */
#define DEHLBAZIN_SETTINGS_MOST_BYTES 579     /* of a record: a buffer of so many bytes is never too short */

/* ---- places of the answer record, by the call that fills them when it is done */

#define DEHLBAZIN_ADD_NAME_NUMBER 0

#define DEHLBAZIN_NAME_BYTES_OFFSET 0
#define DEHLBAZIN_NAME_BYTES_LENGTH 1

#define DEHLBAZIN_PREPARE_ROWS 0

#define DEHLBAZIN_COMMIT_WRITES 0

#define DEHLBAZIN_ROLLBACK_ROWS 0

#define DEHLBAZIN_READ_NAME_KIND 0
#define DEHLBAZIN_READ_NAME_NUMBER 1
#define DEHLBAZIN_READ_NAME_PLACE 2

#define DEHLBAZIN_READ_LINE_PREVIOUS 0
#define DEHLBAZIN_READ_LINE_NEW 1
#define DEHLBAZIN_READ_LINE_COMMITTER 2
#define DEHLBAZIN_READ_LINE_MESSAGE 3

#define DEHLBAZIN_READ_ROW_NAME 0
#define DEHLBAZIN_READ_ROW_KIND 1
#define DEHLBAZIN_READ_ROW_LOG 2
#define DEHLBAZIN_READ_ROW_FORCE 3
#define DEHLBAZIN_READ_ROW_MESSAGE 4
#define DEHLBAZIN_READ_ROW_EXPECTED 5
#define DEHLBAZIN_READ_ROW_EXPECTED_KIND 6
#define DEHLBAZIN_READ_ROW_EXPECTED_NUMBER 7
#define DEHLBAZIN_READ_ROW_NEW_KIND 8
#define DEHLBAZIN_READ_ROW_NEW_NUMBER 9
#define DEHLBAZIN_READ_ROW_HAS_PARENT 10
#define DEHLBAZIN_READ_ROW_PARENT 11
#define DEHLBAZIN_READ_ROW_LEAF_PREVIOUS 12
#define DEHLBAZIN_READ_ROW_FOUND 13

#define DEHLBAZIN_WRITE_PACKED_LENGTH 0

#define DEHLBAZIN_READ_PACKED_REFS 0

#define DEHLBAZIN_TAKE_FRAGMENT_HELD 0

#define DEHLBAZIN_CLOSE_RECEIVER_ROWS 0

#define DEHLBAZIN_READ_SETTINGS_LOG 0
#define DEHLBAZIN_READ_SETTINGS_MODE 1
#define DEHLBAZIN_READ_SETTINGS_SITE 2
#define DEHLBAZIN_READ_SETTINGS_COMMITTERS 3

#define DEHLBAZIN_READ_COMMITTER_NUMBER 0
#define DEHLBAZIN_READ_COMMITTER_OFFSET 1
#define DEHLBAZIN_READ_COMMITTER_LENGTH 2

#define DEHLBAZIN_WRITE_SETTINGS_LENGTH 0

/* ---- places of the answer record, by the number of a refusal that fills them, whatever the call */

#define DEHLBAZIN_NOT_REGISTERED_NUMBER 0

#define DEHLBAZIN_MULTIPLE_EDITS_NAME 0

#define DEHLBAZIN_LOCK_ACQUIRE_NAME 0 /* the name of the edit that led to the locked name */

#define DEHLBAZIN_DELETE_REFERENCE_MUST_EXIST_NAME 0

#define DEHLBAZIN_MUST_NOT_EXIST_NAME 0
#define DEHLBAZIN_MUST_NOT_EXIST_ACTUAL_KIND 1
#define DEHLBAZIN_MUST_NOT_EXIST_ACTUAL_NUMBER 2
#define DEHLBAZIN_MUST_NOT_EXIST_NEW_KIND 3
#define DEHLBAZIN_MUST_NOT_EXIST_NEW_NUMBER 4

#define DEHLBAZIN_MUST_EXIST_NAME 0
#define DEHLBAZIN_MUST_EXIST_EXPECTED_KIND 1 /* object, with number 0, where any value was expected */
#define DEHLBAZIN_MUST_EXIST_EXPECTED_NUMBER 2

#define DEHLBAZIN_REFERENCE_OUT_OF_DATE_NAME 0
#define DEHLBAZIN_REFERENCE_OUT_OF_DATE_EXPECTED_KIND 1
#define DEHLBAZIN_REFERENCE_OUT_OF_DATE_EXPECTED_NUMBER 2
#define DEHLBAZIN_REFERENCE_OUT_OF_DATE_ACTUAL_KIND 3
#define DEHLBAZIN_REFERENCE_OUT_OF_DATE_ACTUAL_NUMBER 4

#define DEHLBAZIN_DELETE_MUST_NOT_EXIST_NAME 0

#define DEHLBAZIN_NAME_CONFLICT_NAME 0 /* the row's own name, which links may have led to */

#define DEHLBAZIN_MALFORMED_LINE_NUMBER 0 /* from 1, comments counted */

/* ---- places of the answer record, by the number of a stop of commit: how many writes were made before it */

#define DEHLBAZIN_NO_COMMITTER_WRITES 0

#define DEHLBAZIN_USED_UP_WRITES 0

/* What stands at place i of an answer record, which has DEHLBAZIN_ANSWER_SIZE bytes. The last place is 15: past it every i
 * gives 0, and nothing is read. */
static inline uint64_t dehlbazin_place(const uint8_t *answer, size_t i)
{
    uint64_t number = 0;
    size_t at;
    if (i >= DEHLBAZIN_ANSWER_SIZE / 8)
        return 0;
    for (at = 8 * i; at < 8 * i + 8; at++)
        number = number << 8 | answer[at];
    return number;
}

#ifdef __cplusplus
extern "C" {
#endif

/* Below, 'refused' leaves out what every call can return: 1, of the region, of the receiver and of the answer record. */

/* Makes an empty store with a log setting. Whatever the region held is gone, a prepared transaction too.
 * setting: DEHLBAZIN_SETTING_..
 * refused: 2 it is none of the three.
 * places: none. */
uint32_t dehlbazin_start(uint8_t *region, size_t region_len, uint64_t setting, uint8_t *answer, size_t answer_len);

/* Registers a name, or finds it: a known name gives the number that it has.
 * refused: 18 the bytes are no name; 19 it is new, and 256 names are held.
 * places: 0 the name's number. */
uint32_t dehlbazin_add_name(uint8_t *region, size_t region_len, const uint8_t *name, size_t name_len, uint8_t *answer,
                            size_t answer_len);

/* Says where in the region the bytes of a name stand. They stay there until the next start.
 * refused: 3 no such name (place 0 the number).
 * places: 0 the offset from the region's first byte; 1 how many bytes. */
uint32_t dehlbazin_name_bytes(const uint8_t *region, size_t region_len, uint64_t name, uint8_t *answer, size_t answer_len);

/* Sets the loose value of a name, whatever its lock.
 * kind: DEHLBAZIN_KIND_..; number: an object's with object, a name's with link, else 0.
 * refused: 15 a transaction is prepared; 3 no such name, or no such name to link to (place 0 the number, the name's
 * before the link's); 21 object 0, another kind, a number beside none or broken, or a value where a name above or beneath
 * has a loose one.
 * places: none. */
uint32_t dehlbazin_load_loose(uint8_t *region, size_t region_len, uint64_t name, uint64_t kind, uint64_t number,
                              uint8_t *answer, size_t answer_len);

/* Sets the packed value of a name, whatever the locks.
 * kind: DEHLBAZIN_KIND_NONE with number 0, or DEHLBAZIN_KIND_OBJECT with the object's.
 * refused: 15 a transaction is prepared; 3 no such name (place 0 the number); 21 object 0, another kind, a number beside
 * none, or an object for a name that is not packable.
 * places: none. */
uint32_t dehlbazin_load_packed(uint8_t *region, size_t region_len, uint64_t name, uint64_t kind, uint64_t number,
                               uint8_t *answer, size_t answer_len);

/* Places a foreign lock on a name or on the packed table: another program holds it. Nothing else of the store changes.
 * kind: DEHLBAZIN_LOCKABLE_..; number: a name's with name. With the packed table every number does the same.
 * refused, in this order: 2 the kind is neither of the two; 3 no such name (place 0 the number); 20 the lock is not free.
 * places: none. */
uint32_t dehlbazin_place_lock(uint8_t *region, size_t region_len, uint64_t kind, uint64_t number, uint8_t *answer,
                              size_t answer_len);

/* Lifts the foreign lock of a name or of the packed table, which is free then. Nothing else of the store changes.
 * kind, number: as above.
 * refused, in this order: 2 the kind is neither of the two; 3 no such name (place 0 the number); 20 the lock is not foreign.
 * places: none. */
uint32_t dehlbazin_lift_lock(uint8_t *region, size_t region_len, uint64_t kind, uint64_t number, uint8_t *answer,
                             size_t answer_len);

/* Prepares a transaction: the edits become rows, in rounds, each link that an edit follows making one row more; each row's
 * name is judged against what the row expects; and the locks that the rows keep become ours. Nothing else of the store
 * changes: the values and the log are commit's to write.
 * list: an edit list, as above; mode: DEHLBAZIN_MODE_..
 * refused, in this order:
 *   15 a transaction is prepared;
 *   2 the list or the mode is malformed;
 *   3 no such name, to edit, to link to or to expect a link to (place 0 the number, the first in the list by its place);
 *   4 links are still followed in a fifth round;
 *   6 two rows have one name (place 0 it, or of several such names the least in byte order);
 *   7 a row counts for the packed table, whose lock is foreign;
 *   then row by row, in this order:
 *   25 a name above the row's has a loose value, whatever the row does; or the row would write a loose value, and a name
 *   beneath has one, or an earlier row would write one too, above or beneath (place 0 the row's own name). Packed values play
 *   no part, and the values are those before the transaction: so a name and one beneath it change places in two transactions;
 *   8 the name's lock is foreign (place 0 the name of the row's topmost ancestor, the edit that it came from);
 *   9 a delete that expects something finds nothing (place 0 the name);
 *   10 an update that expects nothing finds something else than its target (places 0 the name, 1 and 2 what is there, 3 and 4
 *   the new target);
 *   11 an update that expects something finds nothing (places 0 the name, 1 and 2 what was expected: object 0 if any value);
 *   12 another value than the expected one is there (places 0 the name, 1 and 2 what was expected, 3 and 4 what is there);
 *   13 a delete that expects nothing (place 0 the name);
 *   and after all rows 14 the log has no room for the lines that the rows are due.
 * places: 0 how many rows, 0 to 160. */
uint32_t dehlbazin_prepare(uint8_t *region, size_t region_len, const uint8_t *list, size_t list_len, uint64_t mode,
                           uint8_t *answer, size_t answer_len);

/* Commits the prepared transaction: makes its writes in their fixed order (docs/SPEC.md, the writes of commit), all of them or
 * the first ones, frees its locks and forgets it. Foreign locks stay. So a transaction is committed once, stopped or not: what
 * is still wanted after a stop is prepared anew. Wherever it stops, a name in the rows that prepare made reads its old value or
 * its new one, never a third, and every other name reads as before.
 * committer: 1 to 65535, who stands in the log lines; 0 says that there is none, which does where no line is due.
 * allowance: how many writes may be made at most. Every number is one; UINT64_MAX is always enough.
 * refused: 15 nothing is prepared; 2 the committer is above 65535, and the transaction stays prepared.
 * stopped before a write, in this order: 17 the allowance is used up; 16 the write is a log line, and there is no committer.
 * places: 0 how many writes were made, of 16 and 17 too. */
uint32_t dehlbazin_commit(uint8_t *region, size_t region_len, uint64_t committer, uint64_t allowance, uint8_t *answer,
                          size_t answer_len);

/* Gives up the prepared transaction and frees its locks; foreign locks stay. Done too where nothing is prepared.
 * refused: nothing more.
 * places: 0 how many rows were given up. */
uint32_t dehlbazin_rollback(uint8_t *region, size_t region_len, uint8_t *answer, size_t answer_len);

/* Reads a name: its loose target, else its packed value, else nothing. And says where that was found.
 * refused: 3 no such name (place 0 the number).
 * places: 0 the kind, none, object or link; 1 the number beside it; 2 where it was found, DEHLBAZIN_PLACE_.., with packed values
 * seen. The kind is none exactly if that is DEHLBAZIN_PLACE_ABSENT or DEHLBAZIN_PLACE_ABSENT_BEHIND_BROKEN. */
uint32_t dehlbazin_read_name(const uint8_t *region, size_t region_len, uint64_t name, uint8_t *answer, size_t answer_len);

/* Reads a line of a name's log.
 * place: among the lines of that name, from 0, the oldest first.
 * refused: 3 no such name (place 0 the number); 22 it has no line there.
 * places: 0 the object before, 0 where there was none; 1 the object after; 2 the committer; 3 the message. */
uint32_t dehlbazin_read_line(const uint8_t *region, size_t region_len, uint64_t name, uint64_t place, uint8_t *answer,
                             size_t answer_len);

/* Reads a row of the prepared transaction.
 * place: from 0.
 * refused: 22 there is no row there, or nothing is prepared.
 * places: 0 name; 1 kind, DEHLBAZIN_ROW_..; 2 log, DEHLBAZIN_LOG_..; 3 force, 0 or 1; 4 message; 5 what is expected,
 * DEHLBAZIN_EXPECTED_..; 6 and 7 the expected target's kind and number; 8 and 9 the new target's; 10 whether it has a
 * parent, 0 or 1; 11 the place of the parent's row; 12 leaf-previous, 0 where there is none; 13 where prepare found the value of
 * the row's name, DEHLBAZIN_PLACE_.., with packed values seen only if it opened the packed table, whose lock is ours then. Where it
 * did not, as with rows of the log only, a name that has nothing but a packed value is absent here, while dehlbazin_read_name finds
 * it packed. The place stays the same as long as the transaction is prepared. */
uint32_t dehlbazin_read_row(const uint8_t *region, size_t region_len, uint64_t place, uint8_t *answer, size_t answer_len);

/* Writes the packed table as text at the beginning of a buffer: a line for each name that has a packed value, in byte order of the
 * names, without a header. It looks at no lock, and a transaction may be prepared. Bytes of the buffer past the text stay as they
 * are, and a table without values has a text of no bytes.
 * refused: 32 the buffer is shorter than the text.
 * places: 0 how many bytes the text has. */
uint32_t dehlbazin_write_packed(const uint8_t *region, size_t region_len, uint8_t *buffer, size_t buffer_len, uint8_t *answer,
                                size_t answer_len);

/* Reads a text, and puts what it says in the place of the whole packed table: a name that the text does not have has no packed
 * value then. Names that are not known are added, in line order. Loose values, locks and logs stay, and so do the numbers of the
 * names; no lock is looked at. A text of no bytes is an empty table.
 * A line is a ref line; or a comment, which begins with '#'; or, directly after a ref line, '^' and 40 lower-case hex digits, which
 * git writes of a tag. The last two say nothing. Names rise strictly, in byte order.
 * refused: 15 a transaction is prepared; then the first line at fault decides, and of its faults this order: 27 it is malformed
 * (place 0 its number, from 1, comments counted): of another form, without its line feed, with a name that is none or does not stand
 * behind that of the ref line before, or with an object above 2^64-1; 21 object 0, or a name that is not packable; 19 the name is
 * new, and 256 are held with those that the lines before added.
 * places: 0 how many refs were read. */
uint32_t dehlbazin_read_packed(uint8_t *region, size_t region_len, const uint8_t *text, size_t text_len, uint8_t *answer,
                               size_t answer_len);

/* ---- the calls of a list that arrives in fragments */

/* Makes a fresh receiver, which holds nothing, whatever the bytes were: their number alone is looked at.
 * refused: nothing more.
 * places: none. */
uint32_t dehlbazin_fresh_receiver(uint8_t *receiver, size_t receiver_len, uint8_t *answer, size_t answer_len);

/* Puts a fragment behind what the receiver holds. Any bytes are a fragment, none and all of a list too: they are judged when the
 * receiver is closed.
 * refused: 26 more bytes than there is room for. The receiver stays as it is, and may be closed or take a shorter one.
 * places: 0 how many bytes are held now. */
uint32_t dehlbazin_take_fragment(uint8_t *receiver, size_t receiver_len, const uint8_t *fragment, size_t fragment_len,
                                 uint8_t *answer, size_t answer_len);

/* Prepares a transaction with the list that the receiver holds: answer and region are those of dehlbazin_prepare with the accepted
 * fragments joined, however they were cut. Bytes that are missing, or stand behind the list, make it malformed: 2, in prepare's
 * order. A fresh receiver follows, refused or not, so a list that was refused is sent again. Two refusals leave the receiver as it
 * is: 1 of the receiver itself, and 1 of an answer record of another size. A region that is not good leaves a fresh one.
 * mode: DEHLBAZIN_MODE_..
 * refused: as dehlbazin_prepare, with its places and in its order.
 * places: 0 how many rows, 0 to 160. */
uint32_t dehlbazin_close_receiver(uint8_t *region, size_t region_len, uint8_t *receiver, size_t receiver_len, uint64_t mode,
                                  uint8_t *answer, size_t answer_len);

/* ---- the calls of the settings record. Their refusals come in the order in which they stand. */

/* Makes an empty store with the log setting of a settings record, of either version. Whatever the region held is gone, a prepared
 * transaction too. Of the other settings the store keeps nothing.
 * refused: 24 the record is of another version; 23 it is empty or malformed.
 * places: none. */
uint32_t dehlbazin_start_with_settings(uint8_t *region, size_t region_len, const uint8_t *record, size_t record_len,
                                       uint8_t *answer, size_t answer_len);

/* Reads a settings record, but for its committers, which dehlbazin_read_committer reads.
 * known: the latest version that the reader knows, DEHLBAZIN_SETTINGS_VERSION_..
 * refused: 24 known is neither of the two, or the record is of a version that is not known; 23 it is empty or malformed.
 * places: 0 the log setting, DEHLBAZIN_SETTING_..; 1 the usual mode, DEHLBAZIN_MODE_..; 2 the site, 0 in version 1; 3 how many
 * committers, 0 to 16. */
uint32_t dehlbazin_read_settings(const uint8_t *record, size_t record_len, uint64_t known, uint8_t *answer, size_t answer_len);

/* Reads a committer of a settings record, and says where in the record the bytes of its name stand.
 * known: as above.
 * place: from 0. The committers stand by rising number.
 * refused: 24 and 23 as above; 22 there is no committer there.
 * places: 0 its number; 1 the offset of its name from the record's first byte; 2 how many bytes, 1 to 32. */
uint32_t dehlbazin_read_committer(const uint8_t *record, size_t record_len, uint64_t known, uint64_t place, uint8_t *answer,
                                  size_t answer_len);

/* Writes a settings record at the beginning of a buffer. Bytes of the buffer past the record stay as they are.
 * version: DEHLBAZIN_SETTINGS_VERSION_..
 * log: DEHLBAZIN_SETTING_..; mode: DEHLBAZIN_MODE_..; site: 0 to 65535, and 0 in version 1.
 * numbers: of the committers, each 1 to 65535, rising, 16 at most; lengths: of their names, each 1 to 32, as many as numbers;
 * names: their bytes, one name after the other, which may be any. numbers_len and lengths_len count numbers and not bytes, and
 * both pointers are aligned as a uint64_t is.
 * refused: 24 the version is neither of the two; 23 a setting is out of bounds, the committers do not rise or are more than 16,
 * there are not as many lengths as numbers, the names' bytes are not as many as the lengths say, or the version is 1 and the site
 * is not 0; 33 the buffer is shorter than the record.
 * places: 0 how many bytes the record has. */
uint32_t dehlbazin_write_settings(uint8_t *buffer, size_t buffer_len, uint64_t version, uint64_t log, uint64_t mode, uint64_t site,
                                  const uint64_t *numbers, size_t numbers_len, const uint64_t *lengths, size_t lengths_len,
                                  const uint8_t *names, size_t names_len, uint8_t *answer, size_t answer_len);

#ifdef __cplusplus
}
#endif

#endif
