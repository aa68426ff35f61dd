#include "packed_text.h"

#include <algorithm>

namespace packed_text {

static const char HEX[] = "0123456789abcdef"; // the digits, each in the place of its value
static const size_t ZEROS = 24;               // so many digits, before the 16 of the object

// ---- writing

static std::string line_of(const Entry &entry)
{
    std::string line(ZEROS, '0');
    for (int shift = 60; shift >= 0; shift -= 4)
        line += HEX[entry.packed >> shift & 15];
    return line + " " + entry.name + "\n";
}

std::string text_of(const Store &store)
{
    std::vector<const Entry *> packed;
    for (const Entry &entry : store.entries)
        if (entry.packed != 0)
            packed.push_back(&entry);
    std::sort(packed.begin(), packed.end(), [](const Entry *x, const Entry *y) { return x->name < y->name; });
    std::string text;
    for (const Entry *entry : packed)
        text += line_of(*entry);
    return text;
}

Answer write_packed(const Store &store, std::string &buffer)
{
    const std::string text = text_of(store);
    if (buffer.size() < text.size())
        return answer(32);
    buffer.replace(0, text.size(), text);
    return answer(0, {text.size()});
}

// ---- reading

struct Ref {
    uint64_t object;
    std::string_view name;
};

static bool are_digits(std::string_view digits)
{
    return std::all_of(digits.begin(), digits.end(), [](char c) { return (c >= '0' && c <= '9') || (c >= 'a' && c <= 'f'); });
}

static uint64_t number_of(std::string_view digits)
{
    uint64_t number = 0;
    for (char digit : digits)
        number = number << 4 | uint64_t(std::string_view(HEX).find(digit));
    return number;
}

// A line is looked at without its line feed. None of a line that has not the form of a ref line.
static std::optional<Ref> ref_of(std::string_view line)
{
    if (line.size() < DIGITS + 1 || line[DIGITS] != ' ')
        return {};
    const std::string_view zeros = line.substr(0, ZEROS), object = line.substr(ZEROS, 16), name = line.substr(DIGITS + 1);
    if (zeros.find_first_not_of('0') != zeros.npos || !are_digits(object) || !is_name(name))
        return {};
    return Ref{number_of(object), name};
}

static bool is_comment(std::string_view line) { return !line.empty() && line[0] == '#'; }

static bool is_peeled(std::string_view line)
{
    return line.size() == 1 + DIGITS && line[0] == '^' && are_digits(line.substr(1));
}

// The entry of a name, which is added where it is new. None where there is no room for it.
static Entry *entry_of(Store &store, std::string_view name)
{
    for (Entry &entry : store.entries)
        if (entry.name == name)
            return &entry;
    if (store.entries.size() == MOST_NAMES)
        return nullptr;
    store.entries.push_back({std::string(name), {}, 0, FREE});
    return &store.entries.back();
}

// A reading: the store as the lines until now leave it, and what the next line is judged by.
struct Reading {
    Store store;
    uint64_t lines = 0, refs = 0;
    std::string_view last{}; // the name of the last ref line; where there is none, every name stands behind it
    bool behind_ref = false;

    // What the next line gives, of which it is known that it has a line feed: 0 where it is not at fault.
    Answer take(std::string_view line)
    {
        lines++;
        const std::optional<Ref> ref = ref_of(line);
        const bool peeled = behind_ref && is_peeled(line);
        behind_ref = ref.has_value();
        if (ref)
            return last < ref->name ? take_ref(*ref) : answer(27, {lines});
        return is_comment(line) || peeled ? answer(0) : answer(27, {lines});
    }

    Answer take_ref(const Ref &ref)
    {
        if (ref.object == 0 || !is_packable(ref.name))
            return answer(21);
        Entry *entry = entry_of(store, ref.name);
        if (!entry)
            return answer(19);
        entry->packed = ref.object;
        last = ref.name;
        refs++;
        return answer(0);
    }
};

Answer read_packed(Store &store, std::string_view text)
{
    if (store.mode != 0)
        return answer(15);
    Reading reading{store};
    for (Entry &entry : reading.store.entries)
        entry.packed = 0;
    while (!text.empty()) {
        const size_t feed = text.find('\n');
        const Answer given = feed == text.npos ? answer(27, {reading.lines + 1}) : reading.take(text.substr(0, feed));
        if (given.number != 0)
            return given;
        text.remove_prefix(feed + 1);
    }
    store = reading.store;
    return answer(0, {reading.refs});
}

} // namespace packed_text
