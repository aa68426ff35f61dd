#include "lent.h"

#include <algorithm>
#include <cstdio>
#include <cstdlib>
#include <cstring>
#include <sys/mman.h>
#include <unistd.h>

static const uint8_t WATCHED = 0x5A;

static void must_work(bool works)
{
    if (!works) {
        std::perror("no memory for a check");
        std::exit(2);
    }
}

// A shut page, the pages that the memory needs (one at least), a shut page.
Lent::Lent(size_t size) : length(size)
{
    size_t page = size_t(sysconf(_SC_PAGESIZE));
    inner = std::max<size_t>(1, (size + page - 1) / page) * page;
    mapped = inner + 2 * page;
    void *got = mmap(nullptr, mapped, PROT_NONE, MAP_PRIVATE | MAP_ANONYMOUS, -1, 0);
    must_work(got != MAP_FAILED);
    pages = static_cast<uint8_t *>(got);
    open = pages + page;
    must_work(mprotect(open, inner, PROT_READ | PROT_WRITE) == 0);
    first = open + inner - size;
    std::memset(open, WATCHED, size_t(first - open));
}

Lent::Lent(const Bytes &bytes) : Lent(bytes.size()) { set(bytes); }

Lent::Lent(size_t size, uint8_t byte) : Lent(size) { fill(byte); }

Lent::~Lent() { munmap(pages, mapped); }

void Lent::fill(uint8_t byte) { std::memset(first, byte, length); }

void Lent::set(const Bytes &bytes) { std::copy_n(bytes.begin(), std::min(length, bytes.size()), first); }

bool Lent::holds(const uint8_t *bytes) const { return length == 0 || std::memcmp(first, bytes, length) == 0; }

bool Lent::is_filled(uint8_t byte) const
{
    return std::all_of(first, first + length, [=](uint8_t b) { return b == byte; });
}

bool Lent::is_alone() const
{
    return std::all_of(open, first, [](uint8_t b) { return b == WATCHED; });
}

void Lent::only_read() { must_work(mprotect(open, inner, PROT_READ) == 0); }
