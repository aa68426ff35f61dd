// The packed table as text: written into buffers and as a whole, read from all that bytes are kept in; each call done and refused.
#include "parts.h"
#include "site.h"

#include <algorithm>
#include <type_traits>

using namespace std::string_view_literals;

static_assert(sizeof(PackedTextBuffer) == 27136);
static_assert(std::is_same_v<decltype(std::declval<const View &>().packed_text()), Result<std::string>>);
static_assert(std::is_same_v<decltype(std::declval<const View &>().write_packed(nullptr, 0)), Result<size_t>>);
static_assert(std::is_same_v<decltype(std::declval<Store &>().read_packed(""sv)), Result<uint64_t>>);

// What can be read as a text: bytes that know how many they are, and nothing else.
template <typename What, typename = void> constexpr bool can_be_read = false;
template <typename What>
constexpr bool can_be_read<What, std::void_t<decltype(std::declval<Store &>().read_packed(std::declval<What>()))>> = true;
template <typename... What> constexpr bool all_read = (can_be_read<What> && ...);
template <typename... What> constexpr bool none_read = (!can_be_read<What> && ...);
static_assert(all_read<std::string_view, std::string, const std::string &, std::vector<uint8_t>, std::array<uint8_t, 3>>);
static_assert(all_read<const uint8_t (&)[5], PackedTextBuffer &, const std::vector<uint8_t> &>);
static_assert(none_read<const char *, char *, const char (&)[5], const uint8_t *, std::nullptr_t, int, std::vector<char16_t>>);
static_assert(none_read<EditList, Settings, NameNumber, ObjectNumber, Result<std::string>, std::optional<std::string>>);

// The example of docs/PACKED-TEXT.md.
static const std::string TEXT = "00000000000000000000000000000000000000ff refs/heads/aisle-10\n"
                                "0000000000000000000000000000000000000007 refs/heads/aisle-7\n"
                                "0000000000000000000000000000000000010001 refs/tags/2026-11\n";

static const NameNumber aisle7{1}, tag{2}, aisle10{3}, dock{4};

struct Shelves : Site {
    Shelves() : Site({"HEAD", "refs/heads/aisle-7", "refs/tags/2026-11", "refs/heads/aisle-10", "refs/heads/dock"})
    {
        done(store.load_loose(head, link(aisle7)));
        done(store.load_loose(aisle7, object(12)));
        done(store.load_loose(dock, object(9)));
        load_packed();
    }
    void load_packed()
    {
        done(store.load_packed(aisle7, ObjectNumber(7)));
        done(store.load_packed(tag, ObjectNumber(65537)));
        done(store.load_packed(aisle10, ObjectNumber(255)));
    }
};

static const uint8_t *bytes_of(std::string_view text) { return reinterpret_cast<const uint8_t *>(text.data()); }

static bool counts(const Result<uint64_t> &refs, uint64_t count) { return refs && *refs.get() == count; }

// ---- writing

static void test_write()
{
    Shelves site;
    const Region before = site.region;
    std::vector<uint8_t> buffer(300, 0xEE), same = buffer;
    for (size_t size : {0, 1, 59, 60, 178, 179}) {
        refused(site.store.write_packed(buffer.data(), size), Reason::text_too_long);
        check(buffer == same, "a refusal changes no byte");
    }
    for (size_t size : {180, 181, 300}) {
        std::fill(buffer.begin(), buffer.end(), uint8_t(0xEE));
        check(site.store.write_packed(buffer.data(), size).value() == 180, "180 bytes");
        check(std::equal(TEXT.begin(), TEXT.end(), buffer.begin()), "the text");
        check(std::all_of(buffer.begin() + 180, buffer.end(), [](uint8_t byte) { return byte == 0xEE; }), "the others stay");
    }
    refused(site.store.write_packed(nullptr, 300), Reason::text_too_long); // null is no buffer
    refused(site.store.write_packed(nullptr, 0), Reason::text_too_long);
    PackedTextBuffer whole;
    whole.fill(0xEE);
    check(site.store.write_packed(whole).value() == 180 && whole[180] == 0xEE, "a buffer that is always enough");
    check(std::equal(TEXT.begin(), TEXT.end(), whole.begin()), "the same text");
    check(site.store.packed_text().value() == TEXT && site.region == before, "the whole text, and the region stays");
}

// A view writes too, and a transaction may be prepared.
static void test_write_views()
{
    Shelves site;
    const View view = View::open(site.region).value();
    const auto transaction = site.store.prepare(list_of({Update(aisle7, object(13)), Delete(tag)}), Mode::updates).value();
    check(view.packed_text().value() == TEXT, "a view of a prepared store");
    check(Site().store.packed_text().value().empty() && counts(Site().store.read_packed(""sv), 0), "an empty table");
    check(Site().store.write_packed(nullptr, 0).value() == 0, "which has room in no buffer");
    site.region[0] = 9;
    refused(view.packed_text(), Reason::bad_region);
    PackedTextBuffer buffer;
    refused(site.store.write_packed(buffer), Reason::bad_region);
    site.region[0] = DEHLBAZIN_LAYOUT_VERSION;
    Store moved = std::move(site.store);
    refused(site.store.packed_text(), Reason::bad_region); // a store that was moved from has no region
    refused(site.store.read_packed(TEXT), Reason::bad_region);
    site.store = std::move(moved);
}

// The longest text, of 256 names of 64 bytes that come as they fall.
static void test_longest()
{
    Site site;
    std::string text;
    for (int n = 355; n >= 100; n--) {
        const std::string name = "refs/heads/" + std::string(50, 'x') + std::to_string(n);
        done(site.store.load_packed(site.store.add_name(name).value(), ObjectNumber(UINT64_MAX)));
        text = std::string(24, '0') + std::string(16, 'f') + " " + name + "\n" + text;
    }
    check(text.size() == DEHLBAZIN_PACKED_TEXT_MOST_BYTES && site.store.packed_text().value() == text, "27,136 bytes");
    PackedTextBuffer buffer;
    check(site.store.write_packed(buffer).value() == buffer.size(), "they fill the buffer");
    refused(site.store.write_packed(buffer.data(), buffer.size() - 1), Reason::text_too_long);
    const Region before = site.region;
    check(counts(site.store.read_packed(text), 256) && site.region == before, "they are read again");
    check(counts(site.store.read_packed(buffer), 256) && site.region == before, "from the buffer too");
    text.replace(24, 16, "0000000000000001");
    text.replace(text.size() - 65, 64, "refs/x" + std::string(58, 'y'));
    refused(site.store.read_packed(text), Reason::names_full);
    check(site.region == before, "a refusal changes no byte");
}

// ---- reading

static void test_read()
{
    Shelves site;
    const Region before = site.region;
    check(counts(site.store.read_packed(TEXT), 3) && site.region == before, "what the store wrote changes nothing");
    const std::string by_git = "# pack-refs with: peeled fully-peeled sorted \n"
                               "00000000000000000000000000000000000000ff refs/heads/aisle-10\n"
                               "0000000000000000000000000000000000010001 refs/tags/2026-11\n"
                               "^8f3a52c0d1e6b7948f3a52c0d1e6b7948f3a52c0\n"
                               "0000000000000000000000000000000000000003 refs/tags/2026-12\n";
    check(counts(site.store.read_packed(by_git), 3), "three refs");
    site.reads(aisle7, object(12), Place::loose);
    site.reads(aisle10, object(255), Place::packed);
    check(site.store.name_bytes(NameNumber(5)).value() == "refs/tags/2026-12", "a name is added");
    site.reads(NameNumber(5), object(3), Place::packed);
    done(site.store.load_loose(aisle7, Loose::none()));
    site.reads(aisle7, std::nullopt, Place::absent); // it has no packed value any more
    Site other;
    check(counts(other.store.read_packed(site.store.packed_text().value()), 3), "in another store");
    check(other.store.packed_text().value() == site.store.packed_text().value(), "the same text");
    check(counts(site.store.read_packed(""sv), 0) && site.store.packed_text().value().empty(), "an empty text is an empty table");
}

// From all that bytes are kept in.
static void test_read_ranges()
{
    auto is_read = [](auto read, AT_CALLER) {
        Site site;
        check(counts(read(site.store), 3) && site.store.packed_text().value() == TEXT, "three refs", at);
    };
    uint8_t plain[180];
    std::array<uint8_t, 180> fixed;
    std::copy(TEXT.begin(), TEXT.end(), plain);
    std::copy(TEXT.begin(), TEXT.end(), fixed.begin());
    const std::vector<uint8_t> grown(TEXT.begin(), TEXT.end());
    is_read([&](Store &store) { return store.read_packed(TEXT); });
    is_read([&](Store &store) { return store.read_packed(std::string_view(TEXT)); });
    is_read([&](Store &store) { return store.read_packed(bytes_of(TEXT), TEXT.size()); });
    is_read([&](Store &store) { return store.read_packed(plain); });
    is_read([&](Store &store) { return store.read_packed(fixed); });
    is_read([&](Store &store) { return store.read_packed(grown); });
    Shelves site;
    check(counts(site.store.read_packed(std::vector<uint8_t>()), 0) && site.store.packed_text().value().empty(), "an empty one");
    // A zero is a byte like any other, in a comment as in a line.
    check(counts(site.store.read_packed("#\0\n"sv), 0), "a zero in a comment");
    refused(site.store.read_packed("\0\n"sv), Reason::malformed_line, {1});
}

static void test_refused()
{
    Shelves site;
    Store &store = site.store;
    const Region before = site.region;
    auto refuses = [&](const std::string &text, Reason reason, const std::vector<uint64_t> &places, AT_CALLER) {
        const Result<uint64_t> refs = store.read_packed(text);
        refused(refs, reason, places, at);
        check(site.region == before, "a refusal changes no byte", at);
        const std::optional<uint64_t> line = refs.refusal()->line_number();
        check(line.has_value() == !places.empty() && (!line || *line == places[0]), "the line that it tells", at);
        check(!refs.refusal()->name(), "it is about no name", at);
    };
    const std::string digits(40, '0');
    refuses("x", Reason::malformed_line, {1});
    refuses(TEXT + TEXT, Reason::malformed_line, {4});
    refuses("# one\n# two\n" + TEXT + "\n", Reason::malformed_line, {6});
    refuses(TEXT.substr(0, 179), Reason::malformed_line, {3});
    refuses(TEXT + digits + " refs/tags/x\n", Reason::bad_load, {});
    refuses(TEXT + digits.substr(1) + "1 refs/worktree/x\n", Reason::bad_load, {});
    check(!Refusal(Reason::text_too_long).line_number() && !Refusal(Reason::bad_load).line_number(), "no line of others");
    // Null is no text. With a size it is refused, and not taken for an empty table.
    refused(store.read_packed(nullptr, 5), Reason::malformed_line, {1});
    check(site.region == before, "null changes no byte");
    const auto transaction = store.prepare(EditList()).value();
    refused(store.read_packed(TEXT), Reason::wrong_state);
    refused(store.read_packed(nullptr, 5), Reason::wrong_state);
    refused(store.read_packed("x"sv), Reason::wrong_state);
    check(transaction.prepared(), "it stays prepared");
    done(store.rollback());
    check(counts(store.read_packed(nullptr, 0), 0) && store.packed_text().value().empty(), "null of no size is an empty text");
    site.region[0] = 9;
    refused(store.read_packed(TEXT), Reason::bad_region);
    refused(store.read_packed(nullptr, 5), Reason::bad_region);
}

// A text that lies in the region is copied first. (The linker's checks see that what is lent lies apart.)
static void test_own_bytes()
{
    Shelves site;
    Region region = site.region;
    const size_t packed = 18957; // docs/LAYOUT.md
    done(site.store.load_packed(tag, ObjectNumber(0x236162636465660a))); // '#abcdef' and a line feed
    const uint8_t *comment = site.region.data() + packed + 8 * tag.number();
    check(std::string(comment, comment + 8) == "#abcdef\n", "a text in the region");
    check(counts(site.store.read_packed(comment, 8), 0) && site.store.packed_text().value().empty(), "it is read, and is gone");
    site.load_packed();
    check(site.region == region, "as before");
    refused(site.store.read_packed(site.store.name_bytes(tag).value()), Reason::malformed_line, {1});
    refused(site.store.read_packed(site.region), Reason::malformed_line, {1});
    refused(site.store.read_packed(site.region.data() + site.region.size() - 1, 1), Reason::malformed_line, {1});
    check(site.region == region, "a refusal changes no byte");
    // Beside the region, on both sides of it, nothing is.
    std::vector<uint8_t> room(2 * TEXT.size() + region.size());
    uint8_t *middle = room.data() + TEXT.size();
    std::copy(TEXT.begin(), TEXT.end(), room.begin());
    std::copy(region.begin(), region.end(), middle);
    std::copy(TEXT.begin(), TEXT.end(), middle + region.size());
    Store store = Store::open(middle, region.size()).value();
    check(counts(store.read_packed(room.data(), TEXT.size()), 3), "a text that ends where the region begins");
    check(counts(store.read_packed(middle + region.size(), TEXT.size()), 3), "a text that begins where the region ends");
    refused(store.read_packed(room.data(), TEXT.size() + 1), Reason::malformed_line, {4});
    refused(store.read_packed(middle + region.size() - 1, 1 + TEXT.size()), Reason::malformed_line, {1});
    refused(store.read_packed(room), Reason::malformed_line, {4});
    check(std::equal(region.begin(), region.end(), middle), "the region stays");
}

void test_packed_text()
{
    test_write();
    test_write_views();
    test_longest();
    test_read();
    test_read_ranges();
    test_refused();
    test_own_bytes();
}
