#include "arrivals.h"

#include "randoms.h"

void Arrived::all_met(const std::string &what) const
{
    fresh.all_met(("fresh receivers " + what).c_str(), {0, 1});
    taken.all_met(("fragments " + what).c_str(), {0, 1, 26});
    closed.all_met(("closings " + what).c_str(), {0, 1, 2, 3, 4, 6, 7, 8, 9, 10, 11, 12, 13, 14, 15, 25});
}

// A bit, a byte, the count, or the size. It may still be good then.
void Arrivals::damage(Dice &dice)
{
    const size_t sizes[] = {0, 1, 869, 871, 872}, at = dice.below(bytes.size());
    switch (dice.below(4)) {
    case 0:
        bytes[at] ^= uint8_t(1 << dice.below(8));
        break;
    case 1:
        bytes[at] = uint8_t(dice.any());
        break;
    case 2:
        bytes[0] = uint8_t(dice.below(5));
        bytes[1] = uint8_t(dice.any());
        break;
    default:
        bytes.resize(dice.one_of(sizes));
    }
}

// A damaged one is tried by any of the three. It is made fresh in the end, with the right size.
void Arrivals::mend(Dice &dice, Dock &dock, World &world, At at)
{
    if (dice.once_in(3))
        return take(dice, dock, at);
    if (dice.once_in(3))
        return close(dice, world, at);
    met.fresh.add(dock.freshens(bytes, ANSWER, at));
    if (bytes.size() != receiver::SIZE)
        bytes = receiver::fresh();
    on_its_way = false;
}

// A piece of the list, of any length that is left, and often of none; or bytes that are too many. What is refused is sent no more.
void Arrivals::take(Dice &dice, Dock &dock, At at)
{
    const size_t left = list.size() - sent, lengths[] = {0, 1, 2, 4, 27, 31, 512, dice.below(left + 1), left, left, left};
    const bool strays = dice.once_in(12);
    const std::string stray(dice.once_in(2) ? receiver::ROOM + 1 : 1 + dice.below(receiver::ROOM), 'x');
    const std::string piece = strays ? stray : list.substr(sent, dice.one_of(lengths));
    const uint32_t number = dock.takes(bytes, piece, ANSWER, at);
    met.taken.add(number);
    if (!strays)
        sent = number == 26 ? list.size() : sent + piece.size();
}

void Arrivals::close(Dice &dice, World &world, At at)
{
    const uint64_t mode = dice.once_in(20) ? number_near(dice, 4) : 1 + dice.below(3);
    world.closes(bytes, mode, at);
    met.closed.add(world.number());
    on_its_way = false;
}

void Arrivals::step(Dice &dice, Dock &dock, World &world, At at)
{
    if (!on_its_way) {
        list = random_list(dice, world.store());
        sent = 0;
        on_its_way = true;
    }
    if (bytes.size() == receiver::SIZE && dice.once_in(60))
        damage(dice);
    if (!receiver::held(bytes))
        mend(dice, dock, world, at);
    else if (dice.once_in(50)) {
        met.fresh.add(dock.freshens(bytes, ANSWER, at));
        on_its_way = false;
    } else if (sent == list.size() ? !dice.once_in(10) : dice.once_in(20))
        close(dice, world, at);
    else
        take(dice, dock, at);
}
