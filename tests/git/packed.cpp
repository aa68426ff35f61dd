// Takes a text of the packed table to git and back, by the calls and nothing else. A value is a number in hexadecimal and a name.
//   packed write                  reads values from stdin, one to a line, and prints the text of a store that has them packed
//   packed read FILE [VALUE]..    reads the text in FILE into a store that has these values packed. Prints how many refs it had, or the
//                                 refusal, with its line where it has one; and then the packed values, as git for-each-ref prints them, in
//                                 the order of the names' numbers
//   packed rewrite FILE           reads the text in FILE into an empty store, and prints that store's text
// The exit status is 0 where the calls were done or, of read, refused; 1 where a call was refused that must not be; 2 where it was
// called wrongly.
#include "dehlbazin.h"

#include <array>
#include <cinttypes>
#include <cstdio>
#include <cstdlib>
#include <fstream>
#include <iostream>
#include <iterator>
#include <string>
#include <vector>

static std::array<uint8_t, DEHLBAZIN_REGION_SIZE> region;
static std::array<uint8_t, DEHLBAZIN_ANSWER_SIZE> answer;

static void must_be_done(uint32_t number, const std::string &what)
{
    if (number == DEHLBAZIN_DONE)
        return;
    std::fprintf(stderr, "%s was refused with number %u\n", what.c_str(), unsigned(number));
    std::exit(1);
}

static uint64_t place(size_t i) { return dehlbazin_place(answer.data(), i); }

static const uint8_t *bytes(const std::string &text) { return reinterpret_cast<const uint8_t *>(text.data()); }

static void start()
{
    must_be_done(dehlbazin_start(region.data(), region.size(), DEHLBAZIN_SETTING_NORMAL, answer.data(), answer.size()), "start");
}

static void pack(const std::string &number, const std::string &name)
{
    const uint64_t object = std::strtoull(number.c_str(), nullptr, 16);
    must_be_done(dehlbazin_add_name(region.data(), region.size(), bytes(name), name.size(), answer.data(), answer.size()), name);
    must_be_done(dehlbazin_load_packed(region.data(), region.size(), place(DEHLBAZIN_ADD_NAME_NUMBER), DEHLBAZIN_KIND_OBJECT,
                                       object, answer.data(), answer.size()),
                 name);
}

static void print_text()
{
    std::vector<uint8_t> buffer(DEHLBAZIN_PACKED_TEXT_MOST_BYTES);
    must_be_done(dehlbazin_write_packed(region.data(), region.size(), buffer.data(), buffer.size(), answer.data(), answer.size()),
                 "write_packed");
    std::fwrite(buffer.data(), 1, place(DEHLBAZIN_WRITE_PACKED_LENGTH), stdout);
}

static std::string name_of(uint64_t name)
{
    must_be_done(dehlbazin_name_bytes(region.data(), region.size(), name, answer.data(), answer.size()), "name_bytes");
    const uint8_t *at = region.data() + place(DEHLBAZIN_NAME_BYTES_OFFSET);
    return std::string(at, at + place(DEHLBAZIN_NAME_BYTES_LENGTH));
}

// No name has a loose value here, so what a name reads is what is packed.
static void print_table()
{
    for (uint64_t name = 0;; name++) {
        const uint32_t number = dehlbazin_read_name(region.data(), region.size(), name, answer.data(), answer.size());
        if (number == DEHLBAZIN_NOT_REGISTERED)
            return;
        must_be_done(number, "read_name");
        if (place(DEHLBAZIN_READ_NAME_PLACE) != DEHLBAZIN_PLACE_PACKED)
            continue;
        const uint64_t object = place(DEHLBAZIN_READ_NAME_NUMBER);
        std::printf("%040" PRIx64 " %s\n", object, name_of(name).c_str());
    }
}

static std::string contents(const char *path)
{
    std::ifstream file(path, std::ios::binary);
    if (!file) {
        std::fprintf(stderr, "%s cannot be read\n", path);
        std::exit(2);
    }
    return std::string(std::istreambuf_iterator<char>(file), {});
}

static uint32_t read(const std::string &text)
{
    return dehlbazin_read_packed(region.data(), region.size(), bytes(text), text.size(), answer.data(), answer.size());
}

static void print_read(const std::string &text)
{
    const uint32_t number = read(text);
    if (number == DEHLBAZIN_DONE)
        std::printf("%" PRIu64 " refs\n", place(DEHLBAZIN_READ_PACKED_REFS));
    else if (number == DEHLBAZIN_MALFORMED_LINE)
        std::printf("refused with %u, line %" PRIu64 "\n", unsigned(number), place(DEHLBAZIN_MALFORMED_LINE_NUMBER));
    else
        std::printf("refused with %u\n", unsigned(number));
    print_table();
}

int main(int count, char **words)
{
    const std::string what = count > 1 ? words[1] : "";
    start();
    if (what == "write" && count == 2) {
        for (std::string number, name; std::cin >> number >> name;)
            pack(number, name);
        print_text();
    } else if (what == "read" && count >= 3 && count % 2 == 1) {
        for (int i = 3; i < count; i += 2)
            pack(words[i], words[i + 1]);
        print_read(contents(words[2]));
    } else if (what == "rewrite" && count == 3) {
        must_be_done(read(contents(words[2])), "read_packed");
        print_text();
    } else {
        std::fprintf(stderr, "usage: packed write | read FILE [NUMBER NAME].. | rewrite FILE\n");
        return 2;
    }
    return 0;
}
