// An archive before 0.8.0 has a call for a name's lock and one for the packed table's, each way: the two of now, made of those four.
#pragma once

extern "C" {
uint32_t before_dehlbazin_lock_name(uint8_t *region, size_t region_len, uint64_t name, uint8_t *answer, size_t answer_len);
uint32_t before_dehlbazin_unlock_name(uint8_t *region, size_t region_len, uint64_t name, uint8_t *answer, size_t answer_len);
uint32_t before_dehlbazin_lock_packed(uint8_t *region, size_t region_len, uint8_t *answer, size_t answer_len);
uint32_t before_dehlbazin_unlock_packed(uint8_t *region, size_t region_len, uint8_t *answer, size_t answer_len);

uint32_t before_dehlbazin_place_lock(uint8_t *region, size_t region_len, uint64_t kind, uint64_t number, uint8_t *answer,
                                     size_t answer_len)
{
    return kind == DEHLBAZIN_LOCKABLE_NAME ? before_dehlbazin_lock_name(region, region_len, number, answer, answer_len)
                                           : before_dehlbazin_lock_packed(region, region_len, answer, answer_len);
}

uint32_t before_dehlbazin_lift_lock(uint8_t *region, size_t region_len, uint64_t kind, uint64_t number, uint8_t *answer,
                                    size_t answer_len)
{
    return kind == DEHLBAZIN_LOCKABLE_NAME ? before_dehlbazin_unlock_name(region, region_len, number, answer, answer_len)
                                           : before_dehlbazin_unlock_packed(region, region_len, answer, answer_len);
}
}
