// A receiver beside regions, and the list that is on its way to it: random calls of the three.
#pragma once

#include "dice.h"
#include "dock.h"
#include "tally.h"
#include "world.h"

// What the three calls gave in all walks together.
struct Arrived {
    Tally fresh, taken, closed;

    void all_met(const std::string &what) const;
};

// One receiver. It is good for the most part; now and then it is damaged, as if another program had written there.
class Arrivals {
public:
    explicit Arrivals(Arrived &all) : met(all) {}

    // One call. Mostly the next piece of a list, which is thrown for the store of this world as it stands when the first piece
    // comes; then a closing on this world.
    void step(Dice &dice, Dock &dock, World &world, AT_CALLER);

private:
    void damage(Dice &dice);
    void mend(Dice &dice, Dock &dock, World &world, At at);
    void take(Dice &dice, Dock &dock, At at);
    void close(Dice &dice, World &world, At at);

    Arrived &met;
    Bytes bytes = receiver::fresh();
    std::string list; // of which so many bytes were sent
    size_t sent = 0;
    bool on_its_way = false;
};
