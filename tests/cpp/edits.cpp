#include "edits.h"

#include "fields.h"

#include <cstdlib>

// ---- writing

static void write_record(Pen pen, const Edit &edit)
{
    pen.number(edit.kind, 1);
    pen.number(edit.deref, 1);
    pen.number(edit.log_only, 1);
    pen.number(edit.force, 1);
    pen.number(edit.expected, 1);
    pen.value(edit.expected_target);
    pen.value(edit.new_target);
    pen.number(edit.name, 2);
    pen.number(edit.message, 2);
}

std::string write_list(const std::vector<Edit> &edits)
{
    if (edits.size() > 255)
        std::abort();
    std::vector<uint8_t> list(LIST_HEADER + RECORD * edits.size());
    Pen pen{list.data()};
    pen.number(1, 1);
    pen.number(list.size() - 3, 2);
    pen.number(edits.size(), 1);
    for (size_t i = 0; i < edits.size(); i++)
        write_record(Pen{list.data() + LIST_HEADER + RECORD * i}, edits[i]);
    return std::string(list.begin(), list.end());
}

// ---- reading

static Edit read_record(Eye eye)
{
    Edit edit;
    eye.into(edit.kind);
    eye.into(edit.deref);
    eye.into(edit.log_only);
    eye.into(edit.force);
    eye.into(edit.expected);
    eye.into(edit.expected_target);
    eye.into(edit.new_target);
    eye.into(edit.name);
    eye.into(edit.message);
    return edit;
}

// The number of a link is not looked at: whether it is registered is no question of form.
static bool is_target(const Value &value) { return value.kind == OBJECT ? value.number != 0 : value.kind == LINK; }

static bool is_nothing(const Value &value) { return value == Value{}; }

static bool is_well_formed(const Edit &edit)
{
    bool flags = edit.deref <= 1 && edit.log_only <= 1 && edit.force <= 1;
    bool matches = edit.expected == MUST_EXIST_AND_MATCH || edit.expected == EXISTING_MUST_MATCH;
    bool expected = edit.expected <= EXISTING_MUST_MATCH &&
                    (matches ? is_target(edit.expected_target) : is_nothing(edit.expected_target));
    bool updates = edit.kind == UPDATE && is_target(edit.new_target);
    bool deletes = edit.kind == DELETE && is_nothing(edit.new_target) && edit.force == 0 && edit.message == 0;
    return flags && expected && (updates || deletes);
}

std::optional<std::vector<Edit>> read_list(std::string_view list)
{
    if (list.size() < LIST_HEADER)
        return {};
    const uint8_t *bytes = reinterpret_cast<const uint8_t *>(list.data());
    Eye eye{bytes};
    size_t version = eye.number(1), rest = eye.number(2), count = eye.number(1);
    if (version != 1 || rest != list.size() - 3 || count > MOST_EDITS || list.size() != LIST_HEADER + RECORD * count)
        return {};

    std::vector<Edit> edits;
    for (size_t i = 0; i < count; i++) {
        edits.push_back(read_record(Eye{bytes + LIST_HEADER + RECORD * i}));
        if (!is_well_formed(edits.back()))
            return {};
    }
    return edits;
}

std::optional<uint64_t> first_unregistered(const std::vector<Edit> &edits, size_t names)
{
    for (const Edit &edit : edits) {
        for (const Value &target : {edit.expected_target, edit.new_target})
            if (target.kind == LINK && target.number >= names)
                return target.number;
        if (edit.name >= names)
            return edit.name;
    }
    return {};
}
