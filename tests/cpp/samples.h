// Stores that the checks begin with.
#pragma once

#include "edits.h"

// Numbers that a shorter number would take for k, and a few more that are registered nowhere.
std::vector<uint64_t> too_large(uint64_t k);

// Numbers that are no kind of what a lock is placed on. Shortened, many of them would be one.
std::vector<uint64_t> other_kinds();

// Five names with each kind of value, locks of both kinds, and six log lines. Nothing is prepared.
Store busy();

// A transaction in mode 1: a row and its child, a row that dropped its lock, a delete. The packed table is opened.
Store prepared();

// Four names without packed values and a row each: an update that changes nothing, one to a link, a delete that is
// log-only, and an update that is log-only. What is kept and opened depends on the mode.
Store prepared_in(uint8_t mode);

// A transaction in mode 2 whose rows are of the log only, one of them a child. What is packed is not seen: the packed table is not
// opened, and another holds its lock.
Store unopened();

// Names above and beneath others, with packed values or none where another's loose value forbids a loose one. A bit turned over
// makes such a value, or a '/' of another byte. Nothing is prepared.
Store nested();

// The same with rows, in mode 3: direct ones, deletes and log-only ones, and near them rows that write a link.
Store nested_prepared();

// The store of the marked examples: HEAD links to refs/heads/aisle, which has no value. Setting 1.
Store marked();

// Names that link each to the next, so many times, and a last one with this value. Setting 1.
Store chain(size_t hops, const Value &end);

// So many names without values, all under refs/heads/. Setting 1.
Store plain(size_t names);

// An update row.
Row update(uint16_t name, const Value &target);
Row deletion(uint16_t name);

// The same row that found this when it was prepared, that found nothing and still expects this, that writes the log only, that
// has this parent, and that has this leaf-previous.
Row found(Row row, const Value &target);
Row expecting(Row row, uint8_t expected, const Value &target = {});
Row log_only(Row row);
Row child_of(uint8_t parent, Row row);
Row with_leaf(Row row, uint64_t leaf_previous);

// Edits that follow no link, expect anything, and write the reference and its log.
Edit updating(uint16_t name, const Value &target);
Edit deleting(uint16_t name);

// The same edit through the name's link, of the log only, with force, with a message, and with something expected.
Edit through(Edit edit);
Edit log_only(Edit edit);
Edit forced(Edit edit);
Edit with_message(Edit edit, uint16_t message);
Edit expecting(Edit edit, uint8_t expected, const Value &target = {});
