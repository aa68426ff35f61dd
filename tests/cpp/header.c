/* The header in C: a call, its number and a place of its answer; an edit list, built by the header's constants; a list that is
 * prepared and committed; one that arrives in fragments; a backup and its return; and settings, written and read. */
#include "dehlbazin.h"

#include <string.h>

uint64_t first_name_from_c(uint8_t *region, size_t region_len, uint32_t *number)
{
    static const uint8_t name[] = {'H', 'E', 'A', 'D'};
    uint8_t answer[DEHLBAZIN_ANSWER_SIZE];
    *number = dehlbazin_add_name(region, region_len, name, sizeof name, answer, sizeof answer);
    return dehlbazin_place(answer, DEHLBAZIN_ADD_NAME_NUMBER);
}

static void put(uint8_t *at, uint64_t number, size_t bytes)
{
    while (bytes-- > 0) {
        at[bytes] = (uint8_t)number;
        number >>= 8;
    }
}

/* An update that uses every field, and a delete. Gives the size of the list. */
size_t list_from_c(uint8_t *list)
{
    const size_t count = 2, size = DEHLBAZIN_LIST_HEADER_SIZE + count * DEHLBAZIN_LIST_EDIT_SIZE;
    uint8_t *edit = list + DEHLBAZIN_LIST_HEADER_SIZE;
    memset(list, 0, size);
    list[DEHLBAZIN_LIST_AT_VERSION] = DEHLBAZIN_LIST_VERSION;
    put(list + DEHLBAZIN_LIST_AT_LENGTH, size - DEHLBAZIN_LIST_AT_COUNT, 2);
    list[DEHLBAZIN_LIST_AT_COUNT] = (uint8_t)count;

    edit[DEHLBAZIN_EDIT_AT_KIND] = DEHLBAZIN_ROW_UPDATE;
    edit[DEHLBAZIN_EDIT_AT_DEREF] = 1;
    edit[DEHLBAZIN_EDIT_AT_LOG] = DEHLBAZIN_LOG_AND_REFERENCE;
    edit[DEHLBAZIN_EDIT_AT_FORCE] = 1;
    edit[DEHLBAZIN_EDIT_AT_EXPECTED] = DEHLBAZIN_EXPECTED_EXISTING_MUST_MATCH;
    edit[DEHLBAZIN_EDIT_AT_EXPECTED_KIND] = DEHLBAZIN_KIND_LINK;
    put(edit + DEHLBAZIN_EDIT_AT_EXPECTED_NUMBER, 0x1112131415161718u, 8);
    edit[DEHLBAZIN_EDIT_AT_NEW_KIND] = DEHLBAZIN_KIND_OBJECT;
    put(edit + DEHLBAZIN_EDIT_AT_NEW_NUMBER, 0x0102030405060708u, 8);
    put(edit + DEHLBAZIN_EDIT_AT_NAME, 258, 2);
    put(edit + DEHLBAZIN_EDIT_AT_MESSAGE, 0x2122, 2);

    edit += DEHLBAZIN_LIST_EDIT_SIZE;
    edit[DEHLBAZIN_EDIT_AT_KIND] = DEHLBAZIN_ROW_DELETE;
    edit[DEHLBAZIN_EDIT_AT_LOG] = DEHLBAZIN_LOG_ONLY;
    edit[DEHLBAZIN_EDIT_AT_EXPECTED] = DEHLBAZIN_EXPECTED_MUST_EXIST;
    put(edit + DEHLBAZIN_EDIT_AT_NAME, 3, 2);
    return size;
}

/* Commits a list with committer 258 and room for every write. Gives commit's number, or 99 where the list is not prepared. */
uint32_t move_from_c(uint8_t *region, size_t region_len, const uint8_t *list, size_t list_len, uint64_t *writes)
{
    uint8_t answer[DEHLBAZIN_ANSWER_SIZE];
    uint32_t number =
        dehlbazin_prepare(region, region_len, list, list_len, DEHLBAZIN_MODE_DELETIONS, answer, sizeof answer);
    if (number != DEHLBAZIN_DONE)
        return 99;
    number = dehlbazin_commit(region, region_len, 0x0102, UINT64_MAX, answer, sizeof answer);
    *writes = dehlbazin_place(answer, DEHLBAZIN_COMMIT_WRITES);
    return number;
}

/* Collects a list in fragments of 20 bytes, and prepares it. Gives closing's number, or 99 where a fragment is not taken. */
uint32_t fragments_from_c(uint8_t *region, size_t region_len, const uint8_t *list, size_t list_len, uint64_t *rows)
{
    uint8_t receiver[DEHLBAZIN_RECEIVER_SIZE], answer[DEHLBAZIN_ANSWER_SIZE];
    size_t at;
    uint32_t number = dehlbazin_fresh_receiver(receiver, sizeof receiver, answer, sizeof answer);
    for (at = 0; number == DEHLBAZIN_DONE && at < list_len; at += 20)
        number = dehlbazin_take_fragment(receiver, sizeof receiver, list + at, list_len - at < 20 ? list_len - at : 20, answer,
                                         sizeof answer);
    if (number != DEHLBAZIN_DONE || dehlbazin_place(answer, DEHLBAZIN_TAKE_FRAGMENT_HELD) != list_len)
        return 99;
    number = dehlbazin_close_receiver(region, region_len, receiver, sizeof receiver, DEHLBAZIN_MODE_DELETIONS, answer,
                                      sizeof answer);
    *rows = dehlbazin_place(answer, DEHLBAZIN_CLOSE_RECEIVER_ROWS);
    return number;
}

/* Writes the packed table of one region as text, and reads it in another. Gives how many refs that are, 0 where it is refused. */
uint64_t backup_from_c(const uint8_t *from, uint8_t *to, uint8_t *buffer, size_t buffer_len, uint32_t *number)
{
    uint8_t answer[DEHLBAZIN_ANSWER_SIZE];
    size_t length;
    *number = dehlbazin_write_packed(from, DEHLBAZIN_REGION_SIZE, buffer, buffer_len, answer, sizeof answer);
    if (*number != DEHLBAZIN_DONE)
        return 0;
    length = (size_t)dehlbazin_place(answer, DEHLBAZIN_WRITE_PACKED_LENGTH);
    *number = dehlbazin_read_packed(to, DEHLBAZIN_REGION_SIZE, buffer, length, answer, sizeof answer);
    return dehlbazin_place(answer, DEHLBAZIN_READ_PACKED_REFS);
}

/* Writes the settings of a site, and gives the length of the record. */
size_t settings_from_c(uint8_t *buffer, size_t buffer_len, uint32_t *number)
{
    static const uint64_t numbers[] = {12, 40}, lengths[] = {7, 11};
    static const uint8_t names[] = {'p', 'l', 'a', 'n', 'n', 'e', 'r', 'n', 'i', 'g', 'h', 't', ' ', 's', 'h', 'i', 'f', 't'};
    uint8_t answer[DEHLBAZIN_ANSWER_SIZE];
    *number = dehlbazin_write_settings(buffer, buffer_len, DEHLBAZIN_SETTINGS_VERSION_2, DEHLBAZIN_SETTING_NORMAL,
                                       DEHLBAZIN_MODE_DELETIONS, 7, numbers, sizeof numbers / sizeof *numbers, lengths,
                                       sizeof lengths / sizeof *lengths, names, sizeof names, answer, sizeof answer);
    return (size_t)dehlbazin_place(answer, DEHLBAZIN_WRITE_SETTINGS_LENGTH);
}

/* Starts a store with a record whose second committer is 'night shift', and gives its site; 0 where it is another's. */
uint64_t site_from_c(uint8_t *region, size_t region_len, const uint8_t *record, size_t record_len, uint32_t *number)
{
    static const char name[] = "night shift";
    uint8_t answer[DEHLBAZIN_ANSWER_SIZE];
    *number = dehlbazin_start_with_settings(region, region_len, record, record_len, answer, sizeof answer);
    if (*number != DEHLBAZIN_DONE)
        return 0;
    *number = dehlbazin_read_committer(record, record_len, DEHLBAZIN_SETTINGS_VERSION_2, 1, answer, sizeof answer);
    if (*number != DEHLBAZIN_DONE || dehlbazin_place(answer, DEHLBAZIN_READ_COMMITTER_LENGTH) != sizeof name - 1 ||
        memcmp(record + dehlbazin_place(answer, DEHLBAZIN_READ_COMMITTER_OFFSET), name, sizeof name - 1) != 0)
        return 0;
    *number = dehlbazin_read_settings(record, record_len, DEHLBAZIN_SETTINGS_VERSION_2, answer, sizeof answer);
    return dehlbazin_place(answer, DEHLBAZIN_READ_SETTINGS_SITE);
}
