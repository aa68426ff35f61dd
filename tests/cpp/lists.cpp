#include "lists.h"

#include "samples.h"

using Places = std::vector<uint64_t>;

std::string longest_list()
{
    std::vector<Edit> edits;
    for (uint16_t n = 0; n < MOST_EDITS; n++) {
        const Edit edit = forced(with_message(updating(n, object(0x0102030405060708 * (n + 1u))), uint16_t(0xA1B2 + n)));
        edits.push_back(expecting(edit, EXISTING_MUST_MATCH, object(0x1112131415161718 + n)));
    }
    return write_list(edits);
}

// Lists that are prepared.
static void add_good(std::vector<Listed> &all)
{
    auto add = [&](const char *what, const Store &store, const std::string &list, uint64_t mode, uint64_t rows) {
        all.push_back({what, store, list, mode, answer(0, {rows})});
    };
    Store both = marked();
    both.entries[1].loose = object(5);
    both.entries[1].packed = 3;
    add("no edits", marked(), write_list({}), 3, 0);
    add("an update through a link", marked(), write_list({with_message(through(updating(0, object(7))), 3)}), 1, 2);
    add("a delete", both, write_list({deleting(1)}), 1, 1);
    add("an update through four links", chain(4, object(5)), write_list({through(updating(0, object(7)))}), 2, 5);
    add("two edits", plain(8), write_list({updating(7, link(1)), log_only(updating(3, object(1)))}), 3, 2);
    add("the longest list", plain(MOST_EDITS), longest_list(), 2, MOST_EDITS);
}

// Lists and modes that are malformed: bytes are missing, or too many, or wrong.
static void add_malformed(std::vector<Listed> &all)
{
    auto add = [&](const char *what, const Store &store, const std::string &list, uint64_t mode) {
        all.push_back({what, store, list, mode, answer(2)});
    };
    const std::string list = write_list({updating(1, object(7))}), longest = longest_list();
    std::string version = list, later = longest;
    version[0] = 2;
    later[later.size() - RECORD] = 3;
    add("no bytes", marked(), "", 1);
    add("one byte", marked(), list.substr(0, 1), 1);
    add("a header without its edit", marked(), list.substr(0, LIST_HEADER), 1);
    add("a list without its last byte", marked(), list.substr(0, list.size() - 1), 1);
    add("a list and a byte behind it", marked(), list + std::string(1, '\0'), 1);
    add("two lists", marked(), list + list, 1);
    add("another version", marked(), version, 1);
    add("the longest list without its last byte", plain(MOST_EDITS), longest.substr(0, longest.size() - 1), 2);
    add("the longest list with a wrong kind in its last edit", plain(MOST_EDITS), later, 2);
    for (uint64_t mode : {uint64_t(0), uint64_t(4), (uint64_t(1) << 32) + 1, ~uint64_t(0)})
        add("another mode", marked(), list, mode);
}

// Lists that are refused before the rows' turns, or after them.
static void add_refused(std::vector<Listed> &all)
{
    auto add = [&](const char *what, const Store &store, const std::vector<Edit> &edits, uint32_t number,
                   const Places &places = {}) {
        all.push_back({what, store, write_list(edits), 1, answer(number, places)});
    };
    Store held = marked(), full = marked();
    held.packed_lock = FOREIGN;
    full.lines.assign(MOST_LINES, {0, 1, 2, 3, 4});
    add("a transaction is prepared", prepared(), {updating(1, object(7))}, 15);
    add("no such name", plain(8), {deleting(1), updating(258, object(1))}, 3, {258});
    add("five links", chain(5, object(5)), {through(updating(0, object(7)))}, 4);
    add("two rows of a name", plain(8), {deleting(6), deleting(5), deleting(6)}, 6, {6});
    add("the packed table is held", held, {updating(1, object(7))}, 7);
    add("the log is full", full, {updating(1, object(9))}, 14);
}

// Lists that are refused in a row's turn.
static void add_refused_in_turn(std::vector<Listed> &all)
{
    Store store = plain(8);
    store.entries[2].name = "refs/heads/4/2";
    store.entries[4].loose = object(44);
    store.entries[5].lock = FOREIGN;
    auto add = [&](const char *what, const Edit &edit, uint32_t number, const Places &places) {
        all.push_back({what, store, write_list({updating(7, object(1)), edit}), 1, answer(number, places)});
    };
    add("a held name", deleting(5), 8, {5});
    add("nothing to delete", expecting(deleting(3), MUST_EXIST), 9, {3});
    add("something is there", expecting(updating(4, link(6)), MUST_NOT_EXIST), 10, {4, OBJECT, 44, LINK, 6});
    add("nothing is there", expecting(updating(3, object(1)), MUST_EXIST_AND_MATCH, link(7)), 11, {3, LINK, 7});
    add("something else is there", expecting(deleting(4), MUST_EXIST_AND_MATCH, link(7)), 12, {4, LINK, 7, OBJECT, 44});
    add("a delete that expects nothing", expecting(deleting(6), MUST_NOT_EXIST), 13, {6});
    add("a value above", deleting(2), 25, {2});
}

std::vector<Listed> all_listed()
{
    std::vector<Listed> all;
    add_good(all);
    add_malformed(all);
    add_refused(all);
    add_refused_in_turn(all);
    return all;
}
