// The parts of the program, one to a file.
#pragma once

#include <cstddef>
#include <cstdint>

void test_header();
void test_sizes();
void test_names();
void test_values();
void test_locks();
void test_log();
void test_prepared();
void test_rules();
void test_prepare_list();
void test_prepare_splits();
void test_prepare_turns();
void test_prepare_kept();
void test_prepare_room();
void test_places();
void test_beneath();
void test_beneath_regions();
void test_commit_writes();
void test_commit_lines();
void test_commit_stops();
void test_commit_everywhere();
void test_marked();
void test_random();
void test_settings();
void test_settings_changed();
void test_settings_random();
void test_receiver();
void test_receiver_sizes();
void test_receiver_closed();
void test_receiver_flips();
void test_fragments();
void test_packed_sizes();
void test_packed_write();
void test_packed_read();
void test_packed_changed();
void test_packed_random();
void test_sequences(size_t count, uint64_t seed);
void test_flips(size_t every); // turns over one bit of each so many
