// Numbers, targets and edits as values, and the bytes of an edit list.
#include "parts.h"
#include "site.h"

static std::string hex(const EditList &list)
{
    static const char digits[] = "0123456789abcdef";
    std::string text;
    for (size_t i = 0; i < list.size(); i++) {
        text += digits[list.data()[i] >> 4];
        text += digits[list.data()[i] & 15];
    }
    return text;
}

// The bytes as docs/SPEC.md writes them: fields apart, and a bar between groups.
static void gives(std::initializer_list<Edit> edits, const std::string &bytes, AT_CALLER)
{
    std::string digits;
    for (char c : bytes)
        if (c != ' ' && c != '|')
            digits += c;
    const std::string found = hex(list_of(edits));
    check(found == digits, found, at);
}

static void test_bytes()
{
    gives({}, "01 0001 00");
    // The whole example of an edit list in docs/SPEC.md.
    gives({Update(head, object(7)).deref().message(Message(3))},
          "01 001c 01 | 01 01 00 00 00 | 00 0000000000000000 | 01 0000000000000007 | 0000 | 0003");
    const Expected expected = Expected::existing_must_match(link(NameNumber(0x1112131415161718)));
    gives({Update(NameNumber(258), object(0x0102030405060708)).force().log_only().expecting(expected).message(Message(0x2122))},
          "01 001c 01 | 01 00 01 01 04 | 02 1112131415161718 | 01 0102030405060708 | 0102 | 2122");
    gives({Delete(NameNumber(3)).deref().expecting(Expected::must_exist())},
          "01 001c 01 | 02 01 00 00 01 | 00 0000000000000000 | 00 0000000000000000 | 0003 | 0000");
    gives({Delete(NameNumber(65535)).log_only().expecting(Expected::must_not_exist()), Update(aisle, link(head))},
          "01 0037 02 | 02 00 01 00 02 | 00 0000000000000000 | 00 0000000000000000 | ffff | 0000 "
          "| 01 00 00 00 00 | 00 0000000000000000 | 02 0000000000000000 | 0001 | 0000");
    gives({Update(aisle, object(1)).expecting(Expected::must_exist_and_match(object(UINT64_MAX)))},
          "01 001c 01 | 01 00 00 00 03 | 01 ffffffffffffffff | 01 0000000000000001 | 0001 | 0000");
}

// What the bytes cannot hold is refused where it is added, and the list stays as it was.
static void test_limits()
{
    EditList list;
    refused(list.add(Update(NameNumber(65536), object(7))), Reason::not_registered, {65536});
    refused(list.add(Delete(NameNumber(UINT64_MAX))), Reason::not_registered, {UINT64_MAX});
    refused(list.add(Update(head, object(7)).message(Message(65536))), Reason::malformed);
    check(hex(list) == hex(EditList()) && list.count() == 0, "still empty");
    for (uint64_t n = 0; n < 32; n++)
        done(list.add(Update(NameNumber(n), object(n + 1))));
    const std::string full = hex(list);
    check(list.count() == 32 && list.size() == DEHLBAZIN_LIST_MOST_BYTES, "32 edits");
    refused(list.add(Delete(NameNumber(32))), Reason::malformed);
    check(hex(list) == full, "the 33rd changes nothing");
    refused(EditList::of({Delete(head), Delete(NameNumber(70000))}), Reason::not_registered, {70000});
}

static void test_values()
{
    check(object(7) == object(7) && object(7) != object(8) && object(1) != link(aisle), "targets are told apart");
    check(object(7).object() == ObjectNumber(7) && !object(7).link() && !object(7).is_link(), "an object");
    check(link(aisle).link() == aisle && !link(aisle).object() && link(aisle).is_link(), "a link");
    check(Expected::must_exist_and_match(object(1)) != Expected::existing_must_match(object(1)), "what is expected");
    check(Expected::any() != Expected::must_exist() && Expected::any() == Expected::any(), "and what not");
    check(NameNumber(1) < NameNumber(2) && NameNumber(1) != NameNumber(2), "numbers are in order");
    const Update base(head, object(7));
    const Update deref = base.deref();
    check(hex(list_of({base})) != hex(list_of({deref})), "an edit is not changed by what is made from it");
}

// value() gives what is there or throws the refusal; nothing else throws.
static void test_value()
{
    Site site({"HEAD"});
    check(site.store.add_name("HEAD").value() == head, "a value");
    try {
        (void)site.store.read_name(NameNumber(9)).value();
        check(false, "a refusal has no value");
    } catch (const Refused &refused) {
        check(refused.refusal().reason() == Reason::not_registered && refused.refusal().name() == NameNumber(9), "the refusal");
        check(std::string(refused.what()) == "refused with number 3: name 9: no name has this number", refused.what());
    }
    Result<NameNumber> result = site.store.add_name("lower");
    check(!result && !result.get() && result.number() == 18, "a refusal is seen without a throw");
    result = site.store.add_name("HEAD");
    check(result && *result.get() == head && std::as_const(result).value() == head, "and a value too");
}

void test_edits()
{
    test_bytes();
    test_limits();
    test_values();
    test_value();
}
