// Refusals, targets, places and outcomes in words.
#include "parts.h"
#include "site.h"

#include <cctype>
#include <cstring>
#include <fstream>
#include <set>

static void says(const std::string &found, const std::string &words, AT_CALLER) { check(found == words, found, at); }

// Both ways to say it: with the store's names, and without.
template <typename Value> static void says(const Store &store, const Result<Value> &result, const std::string &words,
                                           const std::string &numbers, AT_CALLER)
{
    check(!result.done(), "refused", at);
    if (!result.done()) {
        says(to_string(*result.refusal(), store), words, at);
        says(to_string(*result.refusal()), numbers, at);
    }
}

static void test_refusals()
{
    Marked site;
    Store &store = site.store;
    done(store.load_loose(aisle, link(head)));
    auto prepare = [&](const Edit &edit) { return store.prepare(list_of({edit})); };
    says(store, prepare(Update(aisle, object(1)).expecting(Expected::must_exist_and_match(object(9)))),
         "refs/heads/aisle: expected object 9, found a link to HEAD", "name 1: expected object 9, found a link to name 0");
    says(store, prepare(Update(head, object(7)).expecting(Expected::must_not_exist())),
         "HEAD: expected nothing, found a link to refs/heads/aisle where object 7 was to be written",
         "name 0: expected nothing, found a link to name 1 where object 7 was to be written");
    const NameNumber tag = store.add_name("refs/tags/spring").value();
    says(store, prepare(Update(tag, object(7)).expecting(Expected::must_exist())),
         "refs/tags/spring: expected a value, found nothing", "name 2: expected a value, found nothing");
    says(store, prepare(Update(tag, object(7)).expecting(Expected::must_exist_and_match(link(head)))),
         "refs/tags/spring: expected a link to HEAD, found nothing", "name 2: expected a link to name 0, found nothing");
    says(store, prepare(Delete(tag).expecting(Expected::must_exist())), "refs/tags/spring: to be deleted, but nothing is there",
         "name 2: to be deleted, but nothing is there");
    says(store, prepare(Delete(tag).expecting(Expected::must_not_exist())), "refs/tags/spring: a delete that expects nothing",
         "name 2: a delete that expects nothing");
    says(store, store.prepare(list_of({Delete(tag), Delete(tag)})), "refs/tags/spring: two rows have this name",
         "name 2: two rows have this name");
    done(store.place_lock(tag));
    says(store, prepare(Delete(tag)), "refs/tags/spring: its lock is foreign, or that of a name that its links lead to",
         "name 2: its lock is foreign, or that of a name that its links lead to");
    const NameNumber shelf = store.add_name("refs/heads/aisle/shelf").value();
    says(store, prepare(Delete(shelf)), "refs/heads/aisle/shelf: a name above or beneath it has a loose value, or would get one",
         "name 3: a name above or beneath it has a loose value, or would get one");
    says(store, store.read_name(NameNumber(65536)), "name 65536: no name has this number",
         "name 65536: no name has this number");
    says(store, prepare(Update(head, object(1)).deref()), "links are still followed in a fifth round",
         "links are still followed in a fifth round");
    says(store, store.add_name("head"), "the bytes are no name", "the bytes are no name");
    const std::string malformed = "line 2: this line of the packed table's text is malformed";
    says(store, store.read_packed(std::string("# a comment\nx\n")), malformed, malformed);
    says(store, store.commit(Committer(1)), "a transaction is prepared and must not be, or none is and must be",
         "a transaction is prepared and must not be, or none is and must be");
}

static void test_others()
{
    Marked site;
    says(to_string(Refusal(Reason::malformed)), "the edit list, mode, setting, kind of lock or committer is malformed");
    says(to_string(Refusal(Reason::malformed_record)), "the settings record is malformed, or a setting is out of bounds");
    says(to_string(Refusal(Reason::unknown_version)), "the settings record has a version that is not known");
    says(to_string(Refusal(Reason::short_buffer)), "the buffer is shorter than the settings record");
    says(to_string(Refusal(Reason::text_too_long)), "the buffer is shorter than the packed table's text");
    says(to_string(Refusal(Reason::nothing_there)), "there is no such log line, row or committer");
    says(to_string(Refusal(Reason::bad_region)), "the region holds no good store, or the bytes are no good receiver");
    says(to_string(Refusal(Reason::receiver_full)), "the fragment is longer than the room that is left in the receiver");
    says(to_string(object(9)), "object 9");
    says(to_string(link(aisle)), "a link to name 1");
    says(to_string(link(aisle), site.store), "a link to refs/heads/aisle");
    says(to_string(link(NameNumber(300)), site.store), "a link to name 300");
    says(to_string(std::optional<Target>()), "nothing");
    says(to_string(Outcome{Outcome::End::all_written, 1}), "1 write");
    says(to_string(Outcome{Outcome::End::used_up, 3}), "stopped after 3 writes: the allowance is used up");
    says(to_string(Outcome{Outcome::End::no_committer, 0}), "stopped after 0 writes: a log line has no committer");
}

// A value is said with its place, and of none the place alone.
static void test_places()
{
    Marked site;
    says(to_string(Place::loose), "loose");
    says(to_string(Place::packed), "packed");
    says(to_string(Place::packed_behind_broken), "packed behind a broken loose");
    says(to_string(Place::absent), "absent");
    says(to_string(Place::absent_behind_broken), "absent behind a broken loose");
    says(to_string(Place(6)), "in a place that this header does not know"); // of a later archive
    says(to_string(Found{object(7), Place::packed_behind_broken}), "object 7, packed behind a broken loose");
    says(to_string(Found{object(7), Place::packed}, site.store), "object 7, packed");
    says(to_string(Found{std::nullopt, Place::absent}), "absent");
    says(to_string(Found{std::nullopt, Place::absent_behind_broken}, site.store), "absent behind a broken loose");
    const Found found = site.store.read_name(head).value();
    says(to_string(found), "a link to name 1, loose");
    says(to_string(found, site.store), "a link to refs/heads/aisle, loose");
    says(to_string(site.store.read_name(aisle).value()), "absent");
}

// The names of the numbers are those of dehlbazin.h, which is read here as text: '#define DEHLBAZIN_BAD_NAME 18' makes 18 bad_name.
static void test_names_of_numbers()
{
    std::ifstream header("include/dehlbazin.h");
    std::set<uint32_t> numbers;
    bool among = false;
    for (std::string line, word, name; std::getline(header, line);) {
        among = (among || line.rfind("#define DEHLBAZIN_DONE ", 0) == 0) && line.rfind("/* ----", 0) != 0;
        if (!among || line.rfind("#define DEHLBAZIN_", 0) != 0)
            continue;
        const size_t begin = std::strlen("#define DEHLBAZIN_"), end = line.find(' ', begin);
        const uint32_t number = uint32_t(std::stoul(line.substr(end)));
        name = line.substr(begin, end - begin);
        for (char &c : name)
            c = char(std::tolower(static_cast<unsigned char>(c)));
        says(detail::word_of(number).name, name);
        check(std::strlen(detail::word_of(number).says) > 0, name + " has words");
        numbers.insert(number);
    }
    check(numbers.size() == 30 && numbers.count(27) == 1 && numbers.count(32) == 1 && *numbers.rbegin() == 33,
          "all numbers from 0 to 27, 32 and 33");
    for (uint32_t number : {28, 31, 34})
        says(Refusal(Reason(number)).reason_name(), "unknown"); // of a later archive
    says(Refusal(Reason::too_many_rows).reason_name(), "too_many_rows");
    says(to_string(Refusal(Reason::too_many_rows)), "the edits come to more than 160 rows");
}

void test_words()
{
    test_refusals();
    test_others();
    test_places();
    test_names_of_numbers();
}
