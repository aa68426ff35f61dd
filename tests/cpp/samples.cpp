#include "samples.h"

std::vector<uint64_t> too_large(uint64_t k)
{
    return {256 + k,
            65536 + k,
            (uint64_t(1) << 32) + k,
            (uint64_t(1) << 32) + 65536 + k,
            (uint64_t(1) << 63) + k,
            ~uint64_t(0) - 65535 + k,
            ~uint64_t(0)};
}

std::vector<uint64_t> other_kinds()
{
    const uint64_t past_32 = uint64_t(1) << 32, last = uint64_t(1) << 63;
    return {2, 3, 255, 256, 257, 65535, 65536, 65537, past_32, past_32 + 1, last, last + 1, ~uint64_t(0)};
}

Store busy()
{
    Store s;
    s.setting = 1;
    s.entries = {
        {"HEAD", link(1), 0, FREE},
        {"refs/heads/aisle", object(7), 5, FREE},
        {"refs/tags/spring", {}, 0x0102030405060708, FOREIGN},
        {"refs/bisect/bad", {BROKEN, 0}, 0, FREE},
        {"refs/heads/b./c", {}, 0, FOREIGN},
    };
    s.packed_lock = FOREIGN;
    s.lines = {
        {0, 0, 5, 1, 3},
        {1, 0, 5, 1, 3},
        {0, 5, 7, 65535, 0},
        {1, 5, 7, 2, 65535},
        {3, ~uint64_t(0), 0x1112131415161718, 0x0102, 0x0304},
        {0, 7, ~uint64_t(0), 9, 9},
    };
    return s;
}

Row update(uint16_t name, const Value &target)
{
    Row row;
    row.name = name;
    row.kind = UPDATE;
    row.new_target = target;
    return row;
}

Row deletion(uint16_t name)
{
    Row row;
    row.name = name;
    row.kind = DELETE;
    return row;
}

Row found(Row row, const Value &target) { return expecting(row, MUST_EXIST_AND_MATCH, target); }

Row expecting(Row row, uint8_t expected, const Value &target)
{
    row.expected = expected;
    row.expected_target = target;
    return row;
}

Row log_only(Row row)
{
    row.log_only = 1;
    return row;
}

Row child_of(uint8_t parent, Row row)
{
    row.has_parent = 1;
    row.parent = parent;
    return row;
}

Row with_leaf(Row row, uint64_t leaf_previous)
{
    row.leaf_previous = leaf_previous;
    return row;
}

Edit updating(uint16_t name, const Value &target)
{
    Edit edit;
    edit.kind = UPDATE;
    edit.name = name;
    edit.new_target = target;
    return edit;
}

Edit deleting(uint16_t name)
{
    Edit edit;
    edit.kind = DELETE;
    edit.name = name;
    return edit;
}

Edit through(Edit edit)
{
    edit.deref = 1;
    return edit;
}

Edit log_only(Edit edit)
{
    edit.log_only = 1;
    return edit;
}

Edit forced(Edit edit)
{
    edit.force = 1;
    return edit;
}

Edit with_message(Edit edit, uint16_t message)
{
    edit.message = message;
    return edit;
}

Edit expecting(Edit edit, uint8_t expected, const Value &target)
{
    edit.expected = expected;
    edit.expected_target = target;
    return edit;
}

Store marked()
{
    Store s;
    s.setting = 1;
    s.entries = {{"HEAD", link(1), 0, FREE}, {"refs/heads/aisle", {}, 0, FREE}};
    return s;
}

Store plain(size_t names)
{
    Store s;
    s.setting = 1;
    for (size_t n = 0; n < names; n++)
        s.entries.push_back({"refs/heads/" + std::to_string(n), {}, 0, FREE});
    return s;
}

Store chain(size_t hops, const Value &end)
{
    Store s = plain(hops + 1);
    for (size_t n = 0; n < hops; n++)
        s.entries[n].loose = link(n + 1);
    s.entries[hops].loose = end;
    return s;
}

Store prepared()
{
    Store s;
    s.setting = 1;
    s.mode = 1;
    s.entries = {
        {"HEAD", link(1), 0, FREE},
        {"refs/heads/aisle", object(7), 0, FREE},
        {"refs/tags/spring", {}, 9, FREE},
        {"refs/heads/old", {BROKEN, 0}, 0, FREE},
        {"refs/heads/apart", {}, 0, FOREIGN},
        {"refs/heads/untouched", object(4), 0, FREE},
    };
    Row head = found(update(0, object(8)), link(1));
    head.log_only = 1;
    head.force = 1;
    head.message = 0x0203;
    head.leaf_previous = 7;
    Row aisle = found(update(1, object(8)), object(7));
    aisle.force = 1;
    aisle.message = 0x0203;
    aisle.has_parent = 1;
    aisle.parent = 0;
    Row spring = found(update(2, object(9)), object(9)); // nothing changes: the lock is dropped, and another took it
    Row old = deletion(3);
    old.expected = EXISTING_MUST_MATCH;
    old.expected_target = object(0x0102030405060708);
    s.rows = {head, aisle, spring, old};
    s.entries[2].lock = FOREIGN;
    s.lines = {{1, 0, 7, 1, 0}, {3, 0, 4, 2, 1}};
    take_locks(s);
    return s;
}

Store prepared_in(uint8_t mode)
{
    Store s;
    s.setting = 2;
    s.mode = mode;
    s.entries = {
        {"refs/heads/same", object(3), 0, FREE},
        {"refs/heads/link", object(3), 0, FREE},
        {"refs/heads/gone", object(3), 0, FREE},
        {"refs/heads/logged", object(3), 0, FREE},
    };
    Row gone = found(deletion(2), object(3));
    gone.log_only = 1;
    Row logged = found(update(3, object(3)), object(3));
    logged.log_only = 1;
    s.rows = {found(update(0, object(3)), object(3)), found(update(1, link(0)), object(3)), gone, logged};
    take_locks(s);
    return s;
}

Store unopened()
{
    Store s;
    s.setting = 1;
    s.mode = 2;
    s.entries = {
        {"HEAD", link(1), 0, FREE},
        {"refs/heads/aisle", {}, 5, FREE},
        {"refs/tags/spring", {BROKEN, 0}, 9, FREE},
        {"refs/heads/old", {BROKEN, 0}, 0, FREE},
        {"refs/heads/both", object(4), 3, FREE},
        {"refs/heads/new", {}, 0, FREE},
    };
    s.rows = {log_only(found(update(0, object(8)), link(1))), log_only(update(2, object(8))), log_only(deletion(3)),
              log_only(found(deletion(4), object(4))), child_of(0, log_only(update(1, object(8))))};
    s.packed_lock = FOREIGN;
    take_locks(s);
    return s;
}

// The bytes of '.', 'o' and '-' are one bit from that of '/', and no value is one bit from a link to name 0.
Store nested()
{
    Store s;
    s.setting = 1;
    s.entries = {
        {"refs/heads/a", object(7), 5, FREE},
        {"refs/heads/a/b", {}, 9, FREE},
        {"refs/heads/a.c", link(0), 0, FREE},
        {"refs/heads/aod", {BROKEN, 0}, 0, FREE},
        {"refs/heads/d", {}, 4, FREE},
        {"refs/heads/d/e", object(3), 0, FREE},
        {"refs/heads/a-f/g", object(2), 0, FOREIGN},
        {"HEAD", link(1), 0, FREE},
    };
    s.lines = {{1, 0, 9, 1, 3}, {3, 0, 4, 2, 0}, {5, 1, 3, 65535, 0x0304}};
    return s;
}

// In modes 1 and 2 row 0 would write a value above name 1's. Row 3 would write one beneath row 1's, if it were not of the log only;
// and row 2, if its name's '.' were a '/'. A value of name 5 would lie above row 4's name.
Store nested_prepared()
{
    Store s;
    s.setting = 1;
    s.mode = 3;
    s.entries = {
        {"refs/heads/a", {}, 5, FREE},
        {"refs/heads/a/b", object(7), 0, FREE},
        {"refs/heads/c", {}, 0, FREE},
        {"refs/heads/c.d", {}, 0, FREE},
        {"refs/heads/c/e", {}, 0, FREE},
        {"refs/heads/f", {}, 0, FREE},
        {"refs/heads/f/g", {}, 3, FREE},
        {"refs/heads/h", {}, 8, FREE},
        {"refs/heads/h/i", link(1), 0, FOREIGN},
        {"HEAD", link(0), 0, FREE},
    };
    s.rows = {found(update(0, object(8)), object(5)), update(2, link(0)), update(3, link(1)), log_only(update(4, link(0))),
              found(deletion(6), object(3)), found(deletion(7), object(8))};
    s.lines = {{6, 0, 4, 1, 0}, {1, 0, 7, 2, 0x0102}};
    take_locks(s);
    return s;
}
