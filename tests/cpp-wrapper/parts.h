// The parts of the program, one to a file.
#pragma once

#include <cstddef>
#include <cstdint>

void test_calls();
void test_edits();
void test_transaction();
void test_walks();
void test_words();
void test_marked();
void test_settings();
void test_receiver();
void test_packed_text();
void test_same(size_t calls, uint64_t seed);
