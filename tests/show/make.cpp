// Makes the regions that crates/show is shown on, by the calls and nothing else; the damaged ones are then changed by hand.
//   make DIRECTORY
// writes into it good, prepared, and five that are not good: version, slot, rules, rows and nested.
#include "dehlbazin.h"

#include <algorithm>
#include <array>
#include <cstdio>
#include <cstdlib>
#include <string>
#include <vector>

using Region = std::array<uint8_t, DEHLBAZIN_REGION_SIZE>;

static Region region;
static std::array<uint8_t, DEHLBAZIN_ANSWER_SIZE> answer;

static void must_be_done(uint32_t number, const std::string &what)
{
    if (number == DEHLBAZIN_DONE)
        return;
    std::fprintf(stderr, "%s was refused with number %u\n", what.c_str(), unsigned(number));
    std::exit(1);
}

static uint64_t number_of(const std::string &name)
{
    const uint8_t *bytes = reinterpret_cast<const uint8_t *>(name.data());
    must_be_done(dehlbazin_add_name(region.data(), region.size(), bytes, name.size(), answer.data(), answer.size()), name);
    return dehlbazin_place(answer.data(), DEHLBAZIN_ADD_NAME_NUMBER);
}

static void loose(const std::string &name, uint64_t kind, uint64_t number)
{
    must_be_done(
        dehlbazin_load_loose(region.data(), region.size(), number_of(name), kind, number, answer.data(), answer.size()), name);
}

static void packed(const std::string &name, uint64_t object)
{
    must_be_done(dehlbazin_load_packed(region.data(), region.size(), number_of(name), DEHLBAZIN_KIND_OBJECT, object,
                                       answer.data(), answer.size()),
                 name);
}

static void lock(const std::string &name)
{
    const uint64_t number = number_of(name);
    must_be_done(
        dehlbazin_place_lock(region.data(), region.size(), DEHLBAZIN_LOCKABLE_NAME, number, answer.data(), answer.size()), name);
}

// ---- edits

static void put(uint8_t *at, uint64_t number, size_t bytes)
{
    for (; bytes > 0; number >>= 8)
        at[--bytes] = uint8_t(number);
}

struct Edit {
    uint8_t kind = DEHLBAZIN_ROW_UPDATE;
    std::string name;
    uint64_t to = 0; // the new object; of a link the name
    uint8_t to_kind = DEHLBAZIN_KIND_OBJECT;
    uint8_t deref = 0, log = 0, force = 0;
    uint8_t expected = DEHLBAZIN_EXPECTED_ANY;
    uint64_t was = 0; // the expected object
    uint64_t message = 0;
};

static Edit update(const std::string &name, uint64_t to)
{
    Edit edit;
    edit.name = name;
    edit.to = to;
    return edit;
}

static Edit link(const std::string &name, const std::string &to)
{
    Edit edit = update(name, number_of(to));
    edit.to_kind = DEHLBAZIN_KIND_LINK;
    return edit;
}

static Edit removal(const std::string &name)
{
    Edit edit;
    edit.kind = DEHLBAZIN_ROW_DELETE;
    edit.name = name;
    edit.to_kind = DEHLBAZIN_KIND_NONE;
    return edit;
}

static void write_edit(uint8_t *at, const Edit &edit)
{
    at[DEHLBAZIN_EDIT_AT_KIND] = edit.kind;
    at[DEHLBAZIN_EDIT_AT_DEREF] = edit.deref;
    at[DEHLBAZIN_EDIT_AT_LOG] = edit.log;
    at[DEHLBAZIN_EDIT_AT_FORCE] = edit.force;
    at[DEHLBAZIN_EDIT_AT_EXPECTED] = edit.expected;
    at[DEHLBAZIN_EDIT_AT_EXPECTED_KIND] = edit.was != 0 ? DEHLBAZIN_KIND_OBJECT : DEHLBAZIN_KIND_NONE;
    put(at + DEHLBAZIN_EDIT_AT_EXPECTED_NUMBER, edit.was, 8);
    at[DEHLBAZIN_EDIT_AT_NEW_KIND] = edit.to_kind;
    put(at + DEHLBAZIN_EDIT_AT_NEW_NUMBER, edit.to, 8);
    put(at + DEHLBAZIN_EDIT_AT_NAME, number_of(edit.name), 2);
    put(at + DEHLBAZIN_EDIT_AT_MESSAGE, edit.message, 2);
}

static void prepare(const std::vector<Edit> &edits, uint64_t mode)
{
    std::vector<uint8_t> list(DEHLBAZIN_LIST_HEADER_SIZE + DEHLBAZIN_LIST_EDIT_SIZE * edits.size());
    list[DEHLBAZIN_LIST_AT_VERSION] = DEHLBAZIN_LIST_VERSION;
    put(&list[DEHLBAZIN_LIST_AT_LENGTH], list.size() - DEHLBAZIN_LIST_AT_COUNT, 2);
    list[DEHLBAZIN_LIST_AT_COUNT] = uint8_t(edits.size());
    for (size_t i = 0; i < edits.size(); i++)
        write_edit(&list[DEHLBAZIN_LIST_HEADER_SIZE + DEHLBAZIN_LIST_EDIT_SIZE * i], edits[i]);
    must_be_done(dehlbazin_prepare(region.data(), region.size(), list.data(), list.size(), mode, answer.data(), answer.size()),
                 "prepare");
}

static void commit(uint64_t committer)
{
    must_be_done(dehlbazin_commit(region.data(), region.size(), committer, 1000, answer.data(), answer.size()), "commit");
}

// ---- the regions

// Every kind of value and lock, and a log of three names.
static void make_good()
{
    must_be_done(dehlbazin_start(region.data(), region.size(), DEHLBAZIN_SETTING_NORMAL, answer.data(), answer.size()), "start");
    number_of("HEAD");
    loose("refs/heads/aisle-7", DEHLBAZIN_KIND_OBJECT, 4101);
    loose("HEAD", DEHLBAZIN_KIND_LINK, number_of("refs/heads/aisle-7"));
    Edit through = update("HEAD", 4102);
    through.deref = 1;
    through.message = 3;
    prepare({through}, DEHLBAZIN_MODE_DELETIONS);
    commit(12);
    through.to = 4103;
    through.message = 4;
    prepare({through, update("refs/heads/old", 6)}, DEHLBAZIN_MODE_DELETIONS);
    commit(7);
    packed("refs/heads/aisle-7", 12);
    packed("refs/heads/aisle-8", UINT64_MAX);
    number_of("refs/heads/aisle-9");
    loose("refs/tags/bent", DEHLBAZIN_KIND_BROKEN, 0);
    packed("refs/tags/bent", 5);
    loose("refs/tags/gone", DEHLBAZIN_KIND_BROKEN, 0);
    lock("refs/tags/gone");
}

// All kinds of rows and of writes, and rows whose value was found at each of the five places.
static void make_prepared()
{
    make_good();
    loose("refs/tags/flat", DEHLBAZIN_KIND_BROKEN, 0);
    Edit through = update("HEAD", 4104);
    through.deref = 1;
    through.message = 6;
    through.expected = DEHLBAZIN_EXPECTED_MUST_EXIST_AND_MATCH;
    through.was = 4103;
    Edit same = update("refs/heads/aisle-8", UINT64_MAX);
    same.log = DEHLBAZIN_LOG_ONLY;
    Edit forced = update("refs/tags/new", 9);
    forced.force = 1;
    forced.expected = DEHLBAZIN_EXPECTED_MUST_NOT_EXIST;
    Edit first = update("refs/heads/aisle-9", 8);
    first.expected = DEHLBAZIN_EXPECTED_EXISTING_MUST_MATCH;
    first.was = 2;
    prepare({through, same, forced, first, link("ORIG_HEAD", "refs/heads/aisle-9"), removal("refs/tags/bent"),
             removal("refs/heads/old"), removal("refs/tags/flat")},
            DEHLBAZIN_MODE_UPDATES);
}

// Names beneath names: packed values, and rows that go straight to the packed table.
static void make_nested()
{
    must_be_done(dehlbazin_start(region.data(), region.size(), DEHLBAZIN_SETTING_NORMAL, answer.data(), answer.size()), "start");
    loose("refs/heads/dock", DEHLBAZIN_KIND_OBJECT, 5);
    packed("refs/heads/dock/left", 6);
    prepare({update("refs/heads/hall", 7), update("refs/heads/hall/left", 8)}, DEHLBAZIN_MODE_UPDATES_REMOVE_LOOSE);
}

static void save(const std::string &path)
{
    std::FILE *file = std::fopen(path.c_str(), "wb");
    if (file == nullptr || std::fwrite(region.data(), 1, region.size(), file) != region.size() || std::fclose(file) != 0) {
        std::perror(path.c_str());
        std::exit(1);
    }
}

int main(int count, char **words)
{
    if (count != 2) {
        std::fprintf(stderr, "make DIRECTORY\n");
        return 1;
    }
    const std::string directory = std::string(words[1]) + "/";
    make_good();
    save(directory + "good");
    make_prepared();
    save(directory + "prepared");
    make_good();
    region[0] = 2; // a version to come, of another length
    region[4]++;
    save(directory + "version");
    make_good();
    region[16653 + 3 * 9] = 7; // the kind of name 3's loose value
    save(directory + "slot");
    make_good();
    std::copy(&region[13 + 65 * 2], &region[13 + 65 * 3], &region[13 + 65 * 4]); // name 4 is spelled as name 2
    region[21005 + 1] = 2;                                                         // the lock of name 1 is ours
    region[12] = 2;                                                                // and the packed table's
    save(directory + "rules");
    make_prepared();
    region[21261 + 36 * 0 + 15] = 1; // row 0 expects a link to a name that is not registered
    region[8] = 4;                   // 1,024 lines, all as the first one, so that the lines that are due have no room
    region[9] = 0;
    for (size_t i = 1; i < 1024; i++)
        std::copy(&region[27021], &region[27021 + 22], &region[27021 + 22 * i]);
    save(directory + "rows");
    make_nested();
    region[16653 + 9 * 1] = DEHLBAZIN_KIND_BROKEN; // name 1, beneath name 0, has a loose value too
    region[10] = DEHLBAZIN_MODE_DELETIONS;         // and both rows would now write one
    save(directory + "nested");
    return 0;
}
