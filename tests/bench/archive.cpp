#include "archive.h"

#define ENTRY(name) dehlbazin_##name,
const Archive NOW = {ENTRIES(ENTRY)};
#undef ENTRY

#ifdef WITH_BEFORE
extern "C" {
#define DECLARE(name) decltype(dehlbazin_##name) before_dehlbazin_##name;
ENTRIES(DECLARE)
#undef DECLARE
}
#ifdef BEFORE_HAS_FOUR_LOCKS
#include "before_locks.h"
#endif
#define ENTRY(name) before_dehlbazin_##name,
static const Archive OLDER = {ENTRIES(ENTRY)};
#undef ENTRY
const Archive *const BEFORE = &OLDER;
#else
const Archive *const BEFORE = nullptr;
#endif

uint32_t make(const Archive &archive, const Call &call, uint8_t *region, uint8_t *record)
{
    const size_t size = DEHLBAZIN_REGION_SIZE, answer = DEHLBAZIN_ANSWER_SIZE;
    const uint8_t *bytes = reinterpret_cast<const uint8_t *>(call.bytes.data());
    switch (call.op) {
    case Op::start:
        return archive.start(region, size, call.a, record, answer);
    case Op::add_name:
        return archive.add_name(region, size, bytes, call.bytes.size(), record, answer);
    case Op::name_bytes:
        return archive.name_bytes(region, size, call.a, record, answer);
    case Op::load_loose:
        return archive.load_loose(region, size, call.a, call.b, call.c, record, answer);
    case Op::load_packed:
        return archive.load_packed(region, size, call.a, call.b, call.c, record, answer);
    case Op::place_lock:
        return archive.place_lock(region, size, call.a, call.b, record, answer);
    case Op::lift_lock:
        return archive.lift_lock(region, size, call.a, call.b, record, answer);
    case Op::prepare:
        return archive.prepare(region, size, bytes, call.bytes.size(), call.a, record, answer);
    case Op::commit:
        return archive.commit(region, size, call.a, call.b, record, answer);
    case Op::rollback:
        return archive.rollback(region, size, record, answer);
    case Op::read_name:
        return archive.read_name(region, size, call.a, record, answer);
    case Op::read_line:
        return archive.read_line(region, size, call.a, call.b, record, answer);
    case Op::read_row:
        return archive.read_row(region, size, call.a, record, answer);
    case Op::write_packed:
    case Op::read_packed:
        break; // an older archive has neither: texts.cpp measures them
    }
    return ~uint32_t(0);
}
