/* The story of planner.cpp through the plain calls, in C11: a route planner names a few aisles, loads their layouts, and reads
 * them back by name. It moves the layout that HEAD leads to. Then it moves two at once, is stopped half way, reads what stands
 * there, and prints the log.
 * Run it with: bash tools/example c */
#include "dehlbazin.h"

#include <inttypes.h>
#include <stdio.h>
#include <stdlib.h>
#include <string.h>

static uint8_t region[DEHLBAZIN_REGION_SIZE]; /* the store: ours to lend, to copy, to keep in a file */
static uint8_t answer[DEHLBAZIN_ANSWER_SIZE];

/* Every call's number is looked at. One that was not foreseen ends the program: a route over a guessed layout helps nobody. */
static void must_be_done(uint32_t number, const char *what)
{
    if (number == DEHLBAZIN_DONE)
        return;
    fprintf(stderr, "%s was refused with number %" PRIu32 "\n", what, number);
    exit(1);
}

static uint64_t place(size_t i) { return dehlbazin_place(answer, i); }

/* The number of a name: a new one, or the one that it has. */
static uint64_t number_of(const char *name)
{
    must_be_done(dehlbazin_add_name(region, sizeof region, (const uint8_t *)name, strlen(name), answer, sizeof answer), name);
    return place(DEHLBAZIN_ADD_NAME_NUMBER);
}

static void load(const char *name, uint64_t kind, uint64_t number)
{
    uint64_t to = number_of(name);
    must_be_done(dehlbazin_load_loose(region, sizeof region, to, kind, number, answer, sizeof answer), name);
}

static void load_packed(const char *name, uint64_t layout)
{
    uint64_t to = number_of(name);
    must_be_done(dehlbazin_load_packed(region, sizeof region, to, DEHLBAZIN_KIND_OBJECT, layout, answer, sizeof answer), name);
}

/* A name's bytes stand in the region, and no 0 ends them: %.*s takes their length and where they begin. */
struct bytes {
    int length;
    const char *first;
};

static struct bytes name_of(uint64_t number)
{
    struct bytes bytes;
    must_be_done(dehlbazin_name_bytes(region, sizeof region, number, answer, sizeof answer), "a name's bytes");
    bytes.length = (int)place(DEHLBAZIN_NAME_BYTES_LENGTH);
    bytes.first = (const char *)region + place(DEHLBAZIN_NAME_BYTES_OFFSET);
    return bytes;
}

static void print_target(uint64_t kind, uint64_t number)
{
    if (kind == DEHLBAZIN_KIND_OBJECT) {
        printf("layout %" PRIu64, number);
    } else if (kind == DEHLBAZIN_KIND_LINK) {
        struct bytes to = name_of(number);
        printf("as %.*s", to.length, to.first);
    } else {
        printf("none");
    }
}

static const char *words_of(uint64_t found)
{
    switch (found) {
    case DEHLBAZIN_PLACE_LOOSE:
        return "loose";
    case DEHLBAZIN_PLACE_PACKED:
        return "packed";
    case DEHLBAZIN_PLACE_PACKED_BEHIND_BROKEN:
        return "packed behind a broken loose";
    case DEHLBAZIN_PLACE_ABSENT:
        return "absent";
    case DEHLBAZIN_PLACE_ABSENT_BEHIND_BROKEN:
        return "absent behind a broken loose";
    default:
        return "in a place that is not known";
    }
}

/* The value and its place, which shows where a layout is old since a newer one is broken. Of no value the place says all. */
static void print_value(const char *name)
{
    uint64_t number = number_of(name), kind, value, found;
    must_be_done(dehlbazin_read_name(region, sizeof region, number, answer, sizeof answer), name);
    kind = place(DEHLBAZIN_READ_NAME_KIND);
    value = place(DEHLBAZIN_READ_NAME_NUMBER);
    found = place(DEHLBAZIN_READ_NAME_PLACE);
    printf("%-20s ", name);
    if (kind != DEHLBAZIN_KIND_NONE) {
        print_target(kind, value);
        printf(", ");
    }
    printf("%s\n", words_of(found));
}

/* Numbers in an edit list are big-endian. */
static void put(uint8_t *at, uint64_t number, size_t bytes)
{
    for (; bytes > 0; number >>= 8)
        at[--bytes] = (uint8_t)number;
}

/* A move: through the links of a name, from one layout to another, and not if something else than the first is there. */
struct move {
    const char *name;
    uint64_t from, to;
};

static void write_edit(uint8_t *edit, const struct move *move)
{
    edit[DEHLBAZIN_EDIT_AT_KIND] = DEHLBAZIN_ROW_UPDATE;
    edit[DEHLBAZIN_EDIT_AT_DEREF] = 1;
    edit[DEHLBAZIN_EDIT_AT_EXPECTED] = DEHLBAZIN_EXPECTED_MUST_EXIST_AND_MATCH;
    edit[DEHLBAZIN_EDIT_AT_EXPECTED_KIND] = DEHLBAZIN_KIND_OBJECT;
    put(edit + DEHLBAZIN_EDIT_AT_EXPECTED_NUMBER, move->from, 8);
    edit[DEHLBAZIN_EDIT_AT_NEW_KIND] = DEHLBAZIN_KIND_OBJECT;
    put(edit + DEHLBAZIN_EDIT_AT_NEW_NUMBER, move->to, 8);
    put(edit + DEHLBAZIN_EDIT_AT_NAME, number_of(move->name), 2); /* what number_of gives fits */
}

/* The edit list of some moves, at most DEHLBAZIN_LIST_MOST_EDITS. What an edit does not use stays 0. Gives its size. */
static size_t write_list(uint8_t *list, const struct move *moves, size_t count)
{
    size_t size = DEHLBAZIN_LIST_HEADER_SIZE + DEHLBAZIN_LIST_EDIT_SIZE * count, i;
    memset(list, 0, size);
    list[DEHLBAZIN_LIST_AT_VERSION] = DEHLBAZIN_LIST_VERSION;
    put(list + DEHLBAZIN_LIST_AT_LENGTH, size - DEHLBAZIN_LIST_AT_COUNT, 2);
    list[DEHLBAZIN_LIST_AT_COUNT] = (uint8_t)count;
    for (i = 0; i < count; i++)
        write_edit(list + DEHLBAZIN_LIST_HEADER_SIZE + DEHLBAZIN_LIST_EDIT_SIZE * i, &moves[i]);
    return size;
}

/* What a row of the prepared transaction found, and what it is to write. */
static void print_row(uint64_t row)
{
    uint8_t record[DEHLBAZIN_ANSWER_SIZE]; /* its own, since the names' calls fill the other */
    struct bytes name;
    must_be_done(dehlbazin_read_row(region, sizeof region, row, record, sizeof record), "a row");
    name = name_of(dehlbazin_place(record, DEHLBAZIN_READ_ROW_NAME));
    printf("%-20.*s ", name.length, name.first);
    print_target(dehlbazin_place(record, DEHLBAZIN_READ_ROW_EXPECTED_KIND),
                 dehlbazin_place(record, DEHLBAZIN_READ_ROW_EXPECTED_NUMBER));
    printf(dehlbazin_place(record, DEHLBAZIN_READ_ROW_LOG) == DEHLBAZIN_LOG_ONLY ? ", logs " : ", becomes ");
    print_target(dehlbazin_place(record, DEHLBAZIN_READ_ROW_NEW_KIND), dehlbazin_place(record, DEHLBAZIN_READ_ROW_NEW_NUMBER));
    printf("\n");
}

/* All moves are prepared or none, and the locks that they keep are ours until the commit. Shows the rows that they became. */
static void prepare(const struct move *moves, size_t count)
{
    uint8_t list[DEHLBAZIN_LIST_MOST_BYTES];
    size_t size = write_list(list, moves, count);
    uint64_t rows, row;
    must_be_done(dehlbazin_prepare(region, sizeof region, list, size, DEHLBAZIN_MODE_DELETIONS, answer, sizeof answer),
                 "the move");
    rows = place(DEHLBAZIN_PREPARE_ROWS);
    printf("prepared %" PRIu64 " rows\n", rows);
    for (row = 0; row < rows; row++)
        print_row(row);
}

/* Makes the writes, or as many of them as are allowed. Either way the transaction is over then, and its locks are free. */
static void commit(uint64_t committer, uint64_t allowance)
{
    uint32_t number = dehlbazin_commit(region, sizeof region, committer, allowance, answer, sizeof answer);
    if (number == DEHLBAZIN_USED_UP) {
        printf("stopped after %" PRIu64 " writes\n", place(DEHLBAZIN_USED_UP_WRITES));
        return;
    }
    must_be_done(number, "the commit");
    printf("committed with %" PRIu64 " writes\n", place(DEHLBAZIN_COMMIT_WRITES));
}

/* The lines of a name's log, the oldest first. */
static void print_log(const char *name)
{
    uint64_t of = number_of(name), line;
    for (line = 0;; line++) {
        uint32_t number = dehlbazin_read_line(region, sizeof region, of, line, answer, sizeof answer);
        if (number == DEHLBAZIN_NOTHING_THERE)
            return;
        must_be_done(number, name);
        printf("%-20s %" PRIu64 " to %" PRIu64 ", by %" PRIu64 "\n", name, place(DEHLBAZIN_READ_LINE_PREVIOUS),
               place(DEHLBAZIN_READ_LINE_NEW), place(DEHLBAZIN_READ_LINE_COMMITTER));
    }
}

int main(void)
{
    static const char *const names[] = {"HEAD", "refs/heads/aisle-7", "refs/heads/aisle-8", "refs/heads/aisle-9",
                                        "refs/heads/aisle-10"};
    const struct move first[] = {{"HEAD", 4102, 4103}};
    const struct move second[] = {{"HEAD", 4103, 4104}, {"refs/heads/aisle-8", UINT64_MAX, 4104}};
    const uint64_t planner = 12;
    uint32_t number;
    size_t i;

    must_be_done(dehlbazin_start(region, sizeof region, DEHLBAZIN_SETTING_NORMAL, answer, sizeof answer), "start");
    load("refs/heads/aisle-7", DEHLBAZIN_KIND_OBJECT, 4102);
    load("refs/heads/aisle-8", DEHLBAZIN_KIND_OBJECT, UINT64_MAX); /* every 64-bit number but 0 is a layout */
    load_packed("refs/heads/aisle-9", 4090);
    load("refs/heads/aisle-9", DEHLBAZIN_KIND_BROKEN, 0); /* a newer layout was there, and cannot be read any more */
    load("HEAD", DEHLBAZIN_KIND_LINK, number_of("refs/heads/aisle-7"));
    printf("%-20s %s\n", "aisle", "value");
    for (i = 0; i < sizeof names / sizeof *names; i++)
        print_value(names[i]);

    prepare(first, 1);
    commit(planner, UINT64_MAX);
    print_value(names[1]);
    prepare(second, 2);
    commit(planner, 3); /* too few: each aisle reads its old layout or its new one then, never a third */
    print_value(names[1]);
    print_value(names[2]);
    printf("%-20s %s\n", "log of", "move");
    for (i = 0; i < 3; i++) /* a line is written before its value, so the log can be ahead of the aisles */
        print_log(names[i]);

    /* A number that was mixed up on the way is refused whole. It is not taken for name 0. */
    number = dehlbazin_read_name(region, sizeof region, 65536, answer, sizeof answer);
    if (number != DEHLBAZIN_NOT_REGISTERED || place(DEHLBAZIN_NOT_REGISTERED_NUMBER) != 65536)
        return 1;
    printf("name 65536 is refused with number %" PRIu32 "\n", number);
    return 0;
}
