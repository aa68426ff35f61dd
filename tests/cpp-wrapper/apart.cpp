// The linker puts these in the place of the calls that take bytes beside the region, the buffer or the receiver (--wrap). What is
// lent must lie apart, which no call can test, and what came of it where it did not need not be seen.
#include "check.h"
#include "dehlbazin.h"

#include <functional>

static bool apart(const uint8_t *x, size_t x_size, const uint8_t *y, size_t y_size)
{
    const std::less_equal<const uint8_t *> before;
    return before(x + x_size, y) || before(y + y_size, x);
}

static void all_apart(const uint8_t *region, size_t region_len, const uint8_t *bytes, size_t len, const uint8_t *answer,
                      size_t size)
{
    check(apart(region, region_len, bytes, len), "bytes, a receiver or a buffer apart from the region or buffer");
    check(apart(region, region_len, answer, size) && apart(bytes, len, answer, size), "a record apart from both");
}

extern "C" {
decltype(dehlbazin_add_name) __real_dehlbazin_add_name, __wrap_dehlbazin_add_name;
decltype(dehlbazin_prepare) __real_dehlbazin_prepare, __wrap_dehlbazin_prepare;
decltype(dehlbazin_start_with_settings) __real_dehlbazin_start_with_settings, __wrap_dehlbazin_start_with_settings;
decltype(dehlbazin_write_settings) __real_dehlbazin_write_settings, __wrap_dehlbazin_write_settings;
decltype(dehlbazin_take_fragment) __real_dehlbazin_take_fragment, __wrap_dehlbazin_take_fragment;
decltype(dehlbazin_close_receiver) __real_dehlbazin_close_receiver, __wrap_dehlbazin_close_receiver;
decltype(dehlbazin_write_packed) __real_dehlbazin_write_packed, __wrap_dehlbazin_write_packed;
decltype(dehlbazin_read_packed) __real_dehlbazin_read_packed, __wrap_dehlbazin_read_packed;

uint32_t __wrap_dehlbazin_add_name(uint8_t *region, size_t region_len, const uint8_t *name, size_t len, uint8_t *answer,
                                   size_t size)
{
    all_apart(region, region_len, name, len, answer, size);
    return __real_dehlbazin_add_name(region, region_len, name, len, answer, size);
}

uint32_t __wrap_dehlbazin_prepare(uint8_t *region, size_t region_len, const uint8_t *list, size_t len, uint64_t mode,
                                  uint8_t *answer, size_t size)
{
    all_apart(region, region_len, list, len, answer, size);
    return __real_dehlbazin_prepare(region, region_len, list, len, mode, answer, size);
}

uint32_t __wrap_dehlbazin_start_with_settings(uint8_t *region, size_t region_len, const uint8_t *record, size_t len,
                                              uint8_t *answer, size_t size)
{
    all_apart(region, region_len, record, len, answer, size);
    return __real_dehlbazin_start_with_settings(region, region_len, record, len, answer, size);
}

uint32_t __wrap_dehlbazin_take_fragment(uint8_t *receiver, size_t receiver_len, const uint8_t *fragment, size_t len,
                                        uint8_t *answer, size_t size)
{
    all_apart(receiver, receiver_len, fragment, len, answer, size);
    return __real_dehlbazin_take_fragment(receiver, receiver_len, fragment, len, answer, size);
}

uint32_t __wrap_dehlbazin_close_receiver(uint8_t *region, size_t region_len, uint8_t *receiver, size_t len, uint64_t mode,
                                         uint8_t *answer, size_t size)
{
    all_apart(region, region_len, receiver, len, answer, size);
    return __real_dehlbazin_close_receiver(region, region_len, receiver, len, mode, answer, size);
}

uint32_t __wrap_dehlbazin_write_packed(const uint8_t *region, size_t region_len, uint8_t *buffer, size_t len, uint8_t *answer,
                                       size_t size)
{
    all_apart(region, region_len, buffer, len, answer, size);
    return __real_dehlbazin_write_packed(region, region_len, buffer, len, answer, size);
}

uint32_t __wrap_dehlbazin_read_packed(uint8_t *region, size_t region_len, const uint8_t *text, size_t len, uint8_t *answer,
                                      size_t size)
{
    all_apart(region, region_len, text, len, answer, size);
    return __real_dehlbazin_read_packed(region, region_len, text, len, answer, size);
}

uint32_t __wrap_dehlbazin_write_settings(uint8_t *buffer, size_t buffer_len, uint64_t version, uint64_t log, uint64_t mode,
                                         uint64_t site, const uint64_t *numbers, size_t numbers_len, const uint64_t *lengths,
                                         size_t lengths_len, const uint8_t *names, size_t names_len, uint8_t *answer, size_t size)
{
    const auto bytes = [](const uint64_t *list) { return reinterpret_cast<const uint8_t *>(list); };
    all_apart(buffer, buffer_len, names, names_len, answer, size);
    all_apart(buffer, buffer_len, bytes(numbers), 8 * numbers_len, answer, size);
    all_apart(buffer, buffer_len, bytes(lengths), 8 * lengths_len, answer, size);
    return __real_dehlbazin_write_settings(buffer, buffer_len, version, log, mode, site, numbers, numbers_len, lengths, lengths_len,
                                           names, names_len, answer, size);
}
}
