#include "random_calls.h"

#include "commit.h"
#include "packed_text.h"
#include "random_texts.h"
#include "samples.h"
#include "writes.h"

#include <algorithm>

Call random_prepare(Dice &dice, const Store &s)
{
    uint64_t mode = dice.once_in(20) ? number_near(dice, 4) : 1 + dice.below(3);
    return call::prepare(random_list(dice, s), mode);
}

static uint64_t random_committer(Dice &dice)
{
    if (dice.once_in(5))
        return 0;
    return dice.once_in(6) ? number_near(dice, LAST_COMMITTER + 1) : 1 + dice.below(LAST_COMMITTER);
}

Call random_commit(Dice &dice, const Store &s)
{
    uint64_t committer = random_committer(dice), writes = writes_of(s).size();
    return call::commit(committer, dice.once_in(2) ? number_near(dice, writes + 1) : ~uint64_t(0));
}

// A call that makes a transaction, reads it, or ends it.
static Call random_transaction_call(Dice &dice, const Store &s)
{
    if (s.mode == 0)
        return dice.once_in(20) ? random_commit(dice, s) : random_prepare(dice, s);
    switch (dice.below(6)) {
    case 0:
        return random_prepare(dice, s);
    case 1:
        return call::rollback();
    case 2:
    case 3:
        return random_commit(dice, s);
    default:
        return call::read_row(number_near(dice, s.rows.size()));
    }
}

static Call random_load_loose(Dice &dice, uint64_t names)
{
    uint64_t kind = number_near(dice, 4);
    uint64_t number = kind == LINK ? number_near(dice, names) : dice.once_in(3) ? 0 : object_number(dice);
    return call::load_loose(number_near(dice, names), kind, number);
}

static Call random_load_packed(Dice &dice, uint64_t names)
{
    uint64_t kind = number_near(dice, 2), number = dice.once_in(3) ? 0 : object_number(dice);
    return call::load_packed(number_near(dice, names), kind, number);
}

// Of a foreign lock of a name, if there is one, or of any.
static Call random_lift(Dice &dice, const Store &s)
{
    uint64_t names = s.entries.size();
    if (names == 0 || dice.once_in(2))
        return call::lift_lock_of_name(number_near(dice, names));
    uint64_t name = dice.below(names);
    for (uint64_t step = 0; step < names && s.entries[name].lock != FOREIGN; step++)
        name = (name + 1) % names;
    return call::lift_lock_of_name(name);
}

// Mostly on a name or on the packed table, beside which any number does; now and then of a kind that there is not.
static Call random_lock_call(Dice &dice, const Store &s)
{
    uint64_t number = number_near(dice, s.entries.size());
    switch (dice.below(26)) {
    case 0:
        return call::place_lock(dice.one_of(other_kinds()), number);
    case 1:
        return call::lift_lock(dice.one_of(other_kinds()), number);
    case 2:
    case 3:
    case 4:
    case 5:
        return call::place_lock_on_packed(number);
    case 6:
    case 7:
    case 8:
    case 9:
        return call::lift_lock_of_packed(number);
    default:
        return dice.once_in(2) ? call::place_lock_on_name(number) : random_lift(dice, s);
    }
}

static Call random_read(Dice &dice, const Store &s)
{
    uint64_t names = s.entries.size();
    switch (dice.below(5)) {
    case 0:
        return call::name_bytes(number_near(dice, names));
    case 1:
        return call::read_row(number_near(dice, s.rows.size()));
    case 2: {
        uint64_t place = number_near(dice, 1 + s.lines.size() / (1 + names));
        return call::read_line(number_near(dice, names), place);
    }
    default:
        return call::read_name(number_near(dice, names));
    }
}

Call random_write_packed(Dice &dice, const Store &s)
{
    const size_t length = packed_text::text_of(s).size(), less = std::min<size_t>(length, 1 + dice.below(3));
    const size_t rooms[] = {0, dice.below(length + 1), length - less, length, length, length + 1, length + 50,
                            packed_text::MOST_BYTES};
    const size_t room = dice.one_of(rooms);
    return call::write_packed(std::string(room, char(dice.any())));
}

// Of the packed table as text, written or read.
static Call random_text_call(Dice &dice, const Store &s)
{
    return dice.once_in(2) ? random_write_packed(dice, s) : call::read_packed(random_text(dice, s));
}

static Call random_naming(Dice &dice, const Store &s)
{
    uint64_t names = s.entries.size();
    if (names > 0 && dice.once_in(4))
        return call::add_name(s.entries[dice.below(names)].name);
    if (dice.once_in(3))
        return call::add_name(name_near(dice, s));
    return call::add_name(dice.once_in(2) ? good_name(dice) : some_name(dice));
}

Call random_call(Dice &dice, const Store &s)
{
    uint64_t names = s.entries.size();
    if (dice.once_in(5))
        return random_transaction_call(dice, s);
    switch (dice.below(22)) {
    case 0:
        return dice.once_in(4) ? call::start(number_near(dice, 3)) : call::start(3 + dice.below(300));
    case 1:
    case 2:
    case 3:
    case 4:
        return random_naming(dice, s);
    case 5:
    case 6:
    case 7:
        return random_load_loose(dice, names);
    case 8:
    case 9:
        return random_load_packed(dice, names);
    case 10:
    case 11:
    case 12:
    case 13:
    case 14:
        return random_lock_call(dice, s);
    case 15:
        return dice.once_in(20) ? call::rollback() : call::read_row(number_near(dice, s.rows.size()));
    case 16:
    case 17:
        return random_text_call(dice, s);
    default:
        return random_read(dice, s);
    }
}

Call next_call(Dice &dice, const Store &s)
{
    uint64_t names = s.entries.size();
    if (dice.once_in(4))
        return random_call(dice, s);
    if (s.mode != 0 && dice.once_in(2))
        return dice.once_in(2) ? random_lock_call(dice, s) : random_transaction_call(dice, s);
    if (s.mode != 0)
        return random_commit(dice, s);
    if (names < 3 || (names == MOST_NAMES && dice.once_in(4)))
        return call::add_name(dice.once_in(2) ? name_near(dice, s) : good_name(dice));
    if (dice.once_in(3)) {
        uint64_t name = dice.below(names), to = dice.below(names);
        return dice.once_in(3) ? call::load_loose(name, LINK, to) : call::load_loose(name, OBJECT, object_number(dice));
    }
    return random_prepare(dice, s);
}
