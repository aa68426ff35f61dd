#include "random_texts.h"

#include "text_samples.h"

#include <algorithm>
#include <set>

using namespace texts;

using Lines = std::vector<std::string>; // each with its line feed

static std::string digits(Dice &dice, size_t count, const std::string &among)
{
    std::string all;
    while (all.size() < count)
        all += dice.one_of(among);
    return all;
}

static std::string random_peeled(Dice &dice) { return "^" + digits(dice, 40, "0123456789abcdef") + "\n"; }

// Any bytes but a line feed, often those that begin other lines.
static std::string random_comment(Dice &dice)
{
    static const std::string some = "#^ 0af\r/r";
    std::string comment = "#";
    for (size_t more = dice.below(dice.once_in(8) ? 120 : 12); more > 0; more--)
        comment += dice.once_in(3) ? char(dice.any()) : dice.one_of(some);
    std::replace(comment.begin(), comment.end(), '\n', '\0');
    return comment + "\n";
}

// Names that can be packed. In byte order, as a set is.
static std::set<std::string> random_names(Dice &dice, const Store &s)
{
    std::set<std::string> names;
    const uint64_t share = 1 + dice.below(4);
    for (const Entry &entry : s.entries)
        if (dice.once_in(share))
            names.insert(entry.name);
    const size_t some[] = {0, 0, 1, 2, 5};
    for (size_t more = dice.one_of(some); more > 0; more--)
        names.insert(dice.once_in(2) ? good_name(dice) : name_near(dice, s));
    for (auto name = names.begin(); name != names.end();)
        name = is_packable(*name) ? std::next(name) : names.erase(name);
    return names;
}

static Lines good_lines(Dice &dice, const Store &s)
{
    Lines lines;
    if (dice.once_in(3))
        lines.push_back(HEADER);
    const bool with_others = dice.once_in(2);
    for (const std::string &name : random_names(dice, s)) {
        lines.push_back(ref(object_number(dice), name));
        if (with_others && dice.once_in(4))
            lines.push_back(random_peeled(dice));
        if (with_others && dice.once_in(4))
            lines.push_back(random_comment(dice));
    }
    return lines;
}

static std::string joined(const Lines &lines)
{
    std::string text;
    for (const std::string &line : lines)
        text += line;
    return text;
}

std::string good_text(Dice &dice, const Store &store) { return joined(good_lines(dice, store)); }

// ---- something wrong

// A line that is wrong wherever it stands, or that is wrong where it stands for the most part.
static std::string wrong_line(Dice &dice, const Store &s)
{
    const uint64_t object = object_number(dice);
    const std::string name = dice.once_in(2) ? good_name(dice) : name_near(dice, s);
    switch (dice.below(9)) {
    case 0:
        return ref(0, name);
    case 1:
        return ref(object, some_name(dice));
    case 2:
        return ref(object, dice.once_in(2) ? "HEAD" : "refs/worktree/a");
    case 3:
        return digits(dice, 40, "0123456789abcdef") + " " + name + "\n";
    case 4:
        return digits(dice, 40, "00000000AF") + " " + name + "\n";
    case 5:
        return random_peeled(dice);
    case 6:
        return "\n";
    case 7:
        return ref(object, name + dice.one_of(std::vector<std::string>{" ", "\r", "\t", " x", ".lock", "."}));
    default:
        return ref(object, name);
    }
}

static void change_lines(Dice &dice, const Store &s, Lines &lines)
{
    const size_t at = lines.empty() ? 0 : dice.below(lines.size());
    if (lines.empty() || dice.once_in(2)) {
        const std::string wrong = wrong_line(dice, s);
        lines.insert(lines.begin() + long(dice.below(lines.size() + 1)), wrong);
    } else if (dice.once_in(3))
        lines.erase(lines.begin() + long(at));
    else if (dice.once_in(2))
        lines.insert(lines.begin() + long(at), lines[at]);
    else
        std::swap(lines[at], lines[dice.below(lines.size())]);
}

static void change_bytes(Dice &dice, std::string &text)
{
    static const std::string some = " \n\r#^09afAFg/.\t";
    const size_t at = text.empty() ? 0 : dice.below(text.size());
    const char byte = dice.once_in(3) ? char(dice.any()) : dice.one_of(some);
    if (text.empty() || dice.once_in(3))
        text.insert(text.begin() + long(at), byte);
    else if (dice.once_in(3))
        text.erase(at, 1);
    else if (dice.once_in(3))
        text.resize(dice.once_in(3) ? text.size() - 1 : at);
    else
        text[at] = byte;
}

std::string damaged_text(Dice &dice, const Store &store)
{
    Lines lines = good_lines(dice, store);
    const bool in_lines = dice.once_in(2);
    if (in_lines)
        change_lines(dice, store, lines);
    std::string text = joined(lines);
    if (!in_lines || dice.once_in(8))
        change_bytes(dice, text);
    return text;
}

std::string random_text(Dice &dice, const Store &store)
{
    return dice.once_in(2) ? good_text(dice, store) : damaged_text(dice, store);
}
