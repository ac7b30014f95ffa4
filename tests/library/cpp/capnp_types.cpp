// Tests of capnp_canonical.hpp over the types of C++ Cap'n Proto: each form in which a program has a message, beside
// capnp::canonicalize. A line `ok: NAME` or `FAILED: NAME` for each test.
// Defined WITH_OPENSSL, it compares digests after a prefix with those of OpenSSL.
//
//     capnp_types
#include "capnp_canonical_capnp.hpp"
#include "people.capnp.h"
#include <capnp/message.h>
#include <capnp/serialize-packed.h>
#include <capnp/serialize.h>
#include <kj/io.h>
#include <cstdio>
#include <cstring>
#include <limits>
#include <vector>
#ifdef WITH_OPENSSL
#include <openssl/sha.h>
#endif

bool failed = false;

void report(bool holds, const char* what) {
    printf("%s: %s\n", holds ? "ok" : "FAILED", what);
    failed = failed || !holds;
}

bool same(capnp_canonical::Bytes ours, kj::ArrayPtr<const capnp::word> theirs) {
    auto bytes = theirs.asBytes();
    return ours.size() == bytes.size() && memcmp(ours.data(), bytes.begin(), bytes.size()) == 0;
}

void build(Book::Builder book) {
    book.setTitle("People");
    auto people = book.initPeople(2);
    people[0].setName("Ada");
    people[0].setId(7);
    people[0].initPhones(2)[1].setNumber("345");
    people[1].setName("Eve");
    people[1].initFriends(1)[0].setName("Ada");
}

// The whole message in each of its forms.
void test_messages(capnp::MallocMessageBuilder& builder) {
    auto theirs = capnp::canonicalize(builder.getRoot<Book>().asReader());
    report(same(capnp_canonical::copy_flat(builder), theirs), "a MessageBuilder");
    report(same(capnp_canonical::copy_flat(builder.getSegmentsForOutput()), theirs), "getSegmentsForOutput");
    report(same(capnp_canonical::copy_flat(static_cast<capnp::MessageBuilder&>(builder)), theirs), "a MessageBuilder&");
    kj::Array<capnp::word> frame = capnp::messageToFlatArray(builder);
    report(same(capnp_canonical::copy_flat(frame), theirs), "the array of messageToFlatArray");
    report(same(capnp_canonical::copy_flat(frame.asPtr()), theirs), "a pointer to it");
    report(same(capnp_canonical::copy_flat(frame.asBytes()), theirs), "its bytes");
    capnp::FlatArrayMessageReader reader(frame);
    report(same(capnp_canonical::copy_flat(reader), theirs), "a MessageReader");
    report(same(capnp_canonical::copy_flat(reader.getRoot<Book>()), theirs), "a reader of the root");
    report(same(capnp_canonical::copy_flat(reader, {64, 1000}), theirs), "limits");
    kj::VectorOutputStream packed;
    capnp::writePackedMessage(packed, builder);
    report(same(capnp_canonical::copy_flat(capnp_canonical::unpack(packed.getArray())), theirs), "writePackedMessage");
    auto digest = capnp_canonical::digest(frame);
    report(digest != capnp_canonical::Digest{} && digest == capnp_canonical::digest(builder), "the digest of a MessageBuilder");
    report(digest == capnp_canonical::digest(reader) && digest == capnp_canonical::digest(reader, {64, 1000}), "of a MessageReader");
    report(digest == capnp_canonical::digest(reader.getRoot<Book>()), "of a reader of the root");
    report(digest == capnp_canonical::words_digest(theirs), "of the words of capnp::canonicalize");
    report(!capnp_canonical::is_canonical(reader) && !capnp_canonical::check(builder).is_canonical(), "not canonical");
    report(capnp_canonical::size(builder).words == reader.getRoot<capnp::AnyPointer>().targetSize().wordCount, "size");
}

// Whether a refusal with this number is thrown.
template <typename Call>
bool refused(std::uint32_t number, Call call) {
    try {
        static_cast<void>(call());
        return false;
    } catch (const capnp_canonical::Error& error) {
        return error.number() == number;
    }
}

#ifdef WITH_OPENSSL
// A digest of a prefix and words: that of OpenSSL.
capnp_canonical::Digest expected(const std::vector<std::uint8_t>& prefix, kj::ArrayPtr<const capnp::word> words) {
    std::vector<std::uint8_t> all(prefix);
    all.insert(all.end(), words.asBytes().begin(), words.asBytes().end());
    capnp_canonical::Digest digest;
    SHA256(all.data(), all.size(), digest.data());
    return digest;
}

void test_prefixes(capnp::MallocMessageBuilder& builder) {
    auto book = builder.getRoot<Book>();
    auto theirs = capnp::canonicalize(book.asReader());
    kj::Array<capnp::word> frame = capnp::messageToFlatArray(builder);
    capnp::FlatArrayMessageReader reader(frame);
    for (const unsigned size : {0u, 8u, 64u, 100u}) {
        std::vector<std::uint8_t> prefix(size);
        const std::uint64_t id = capnp::typeId<Book>();
        for (std::size_t i = 0; i < size; i++) prefix[i] = std::uint8_t(id >> i % 8 * 8);
        const auto digest = expected(prefix, theirs);
        report(capnp_canonical::digest_with(prefix, builder) == digest, "a prefix and a MessageBuilder");
        report(capnp_canonical::digest_with(prefix, static_cast<capnp::MessageBuilder&>(builder)) == digest, "a MessageBuilder&");
        report(capnp_canonical::digest_with(prefix, reader) == digest, "a MessageReader");
        report(capnp_canonical::digest_with(prefix, reader, {64, 1000}) == digest, "limits");
        report(capnp_canonical::digest_with(prefix, book) == digest, "a builder of a struct");
        report(capnp_canonical::digest_with(prefix, reader.getRoot<Book>()) == digest, "a reader of a struct");
        report(capnp_canonical::digest_with(prefix, reader.getRoot<capnp::AnyPointer>()) == digest, "AnyPointer::Reader");
        report(capnp_canonical::digest_with(prefix, frame) == digest, "a frame");
        Person::Reader person = book.asReader().getPeople()[1];
        report(capnp_canonical::digest_with(prefix, person) == expected(prefix, capnp::canonicalize(person)), "a struct of a list");
    }
    const std::uint32_t too_deep = CAPNP_CANONICAL_MESSAGE_IS_TOO_DEEPLY_NESTED_OR_CONTAINS_CYCLES;
    report(refused(too_deep, [&] { return capnp_canonical::digest_with({}, reader, {1, 1000}); }), "a nesting limit");
}
#else
void test_prefixes(capnp::MallocMessageBuilder&) { printf("skipped: digests after a prefix, no openssl/sha.h\n"); }
#endif

// Two messages with the same value in other segments, and with another one.
void test_equal(capnp::MallocMessageBuilder& builder) {
    auto book = builder.getRoot<Book>();
    capnp::MallocMessageBuilder again, other;
    build(again.initRoot<Book>());
    build(other.initRoot<Book>());
    other.getRoot<Book>().getPeople()[1].setId(8);
    kj::Array<capnp::word> frame = capnp::messageToFlatArray(builder), others = capnp::messageToFlatArray(other);
    capnp::FlatArrayMessageReader reader(frame), different(others);
    report(capnp_canonical::equal(builder, again) && !capnp_canonical::equal(builder, other), "equal: two MessageBuilders");
    report(capnp_canonical::equal(reader, reader) && !capnp_canonical::equal(reader, different), "two MessageReaders");
    report(capnp_canonical::equal(reader, again) && !capnp_canonical::equal(reader, other), "one of each");
    report(capnp_canonical::equal(again, reader) && !capnp_canonical::equal(other, reader), "the other way round");
    report(capnp_canonical::equal(reader, again, {64, 1000}) && !capnp_canonical::equal(reader, other, {64, 1000}), "limits");
    report(capnp_canonical::equal(book, again.getRoot<Book>()) && !capnp_canonical::equal(book, other.getRoot<Book>()), "builders of structs");
    report(capnp_canonical::equal(reader.getRoot<Book>(), again) && !capnp_canonical::equal(reader.getRoot<Book>(), other), "a reader of a struct");
    auto people = book.asReader().getPeople();
    report(capnp_canonical::equal(people, again.getRoot<Book>().getPeople()) && !capnp_canonical::equal(people[0], people[1]), "lists and elements");
    report(capnp_canonical::equal(frame, capnp::messageToFlatArray(again)) && !capnp_canonical::equal(frame, others), "frames");
    const std::uint32_t too_deep = CAPNP_CANONICAL_MESSAGE_IS_TOO_DEEPLY_NESTED_OR_CONTAINS_CYCLES;
    report(refused(too_deep, [&] { return capnp_canonical::equal(reader, again, {1, 1000}); }), "a nesting limit");
    capnp::ReaderOptions shallow;
    shallow.nestingLimit = 1;
    capnp::FlatArrayMessageReader within(frame, shallow);
    report(refused(too_deep, [&] { return capnp_canonical::equal(within, again); }), "that of the first one");
    report(refused(too_deep, [&] { return capnp_canonical::equal(again, within); }), "that of the second one");
}

// Packed bytes are those of Cap'n Proto.
void test_packing(capnp::MallocMessageBuilder& builder) {
    kj::VectorOutputStream theirs, canonical;
    capnp::writePackedMessage(theirs, builder);
    auto same = [](const std::vector<std::uint8_t>& ours, kj::ArrayPtr<kj::byte> wanted) {
        return kj::arrayPtr(ours.data(), ours.size()) == wanted;
    };
    report(same(capnp_canonical::pack(capnp::messageToFlatArray(builder)), theirs.getArray()), "pack: the array of messageToFlatArray");
    auto words = capnp::canonicalize(builder.getRoot<Book>().asReader());
    kj::ArrayPtr<const capnp::word> segment = words;
    capnp::SegmentArrayMessageReader reader(kj::arrayPtr(&segment, 1));
    capnp::writePackedMessage(canonical, kj::arrayPtr(&segment, 1));
    report(same(capnp_canonical::pack(capnp_canonical::copy(builder)), canonical.getArray()), "a canonical copy");
}

// Levels of people, each the only friend of the one before.
void nest(Person::Builder person, int levels) {
    for (int i = 0; i < levels; i++) {
        person.setId(i);
        person = person.initFriends(1)[0];
    }
}

// The limits that hold: a reader's own, and none for what a program built or Cap'n Proto has read.
void test_limits() {
    capnp::MallocMessageBuilder builder;
    nest(builder.initRoot<Person>(), 100);
    auto theirs = capnp::canonicalize(builder.getRoot<Person>().asReader());
    report(same(capnp_canonical::copy_flat(builder), theirs), "a deep MessageBuilder");
    report(same(capnp_canonical::copy_flat(builder.getRoot<Person>()), theirs), "a deep builder");
    kj::Array<capnp::word> frame = capnp::messageToFlatArray(builder);
    capnp::ReaderOptions deep;
    deep.nestingLimit = 1000;
    capnp::FlatArrayMessageReader reader(frame, deep);
    report(same(capnp_canonical::copy_flat(reader), theirs), "a MessageReader with a nesting limit of 1,000");
    report(same(capnp_canonical::copy_flat(reader.getRoot<Person>()), theirs), "a reader within it");
    auto refusal = [](const char* what, std::uint32_t wanted, auto call) {
        try {
            static_cast<void>(call());
            report(false, what);
        } catch (const capnp_canonical::Error& error) {
            report(error.number() == wanted, what);
        }
    };
    const std::uint32_t too_deep = CAPNP_CANONICAL_MESSAGE_IS_TOO_DEEPLY_NESTED_OR_CONTAINS_CYCLES;
    capnp::FlatArrayMessageReader usual(frame);
    refusal("a MessageReader with the usual one", too_deep, [&] { return capnp_canonical::copy_flat(usual); });
    refusal("a limit for a builder", too_deep, [&] { return capnp_canonical::copy_flat(builder, {64, 1 << 20}); });
    refusal("a limit for a reader", too_deep, [&] { return capnp_canonical::copy_flat(reader.getRoot<Person>(), {64, 1 << 20}); });
    refusal("segments", too_deep, [&] { return capnp_canonical::copy_flat(builder.getSegmentsForOutput()); });
}

// A message of 300,000 levels that a program has built, which would take 190 MB of stack: refused with any limit, like each
// message of more levels than CAPNP_CANONICAL_MAX_NESTING. The frame is read within its reader's limit.
void test_deepest() {
    const std::size_t levels = 300000, most = CAPNP_CANONICAL_MAX_NESTING;
    // each word is a pointer to a struct that has the next word as its pointer, and the last one to an empty struct; the
    // message is canonical
    auto chain = [](std::size_t count) {
        auto words = kj::heapArray<std::uint64_t>(count);
        for (auto& word : words) word = std::uint64_t(1) << 48;
        words.back() = 0xfffffffc;
        return words;
    };
    auto segment_of = [](const kj::Array<std::uint64_t>& words) {
        return kj::arrayPtr(reinterpret_cast<const capnp::word*>(words.begin()), words.size());
    };
    auto refused = [](auto call) {
        try {
            static_cast<void>(call());
            return false;
        } catch (const capnp_canonical::Error& error) {
            return error.number() == CAPNP_CANONICAL_MESSAGE_IS_TOO_DEEPLY_NESTED_OR_CONTAINS_CYCLES;
        }
    };
    const auto deep = chain(levels), deeper = chain(most + 1), deepest = chain(most);
    capnp::ReaderOptions options;
    options.nestingLimit = std::numeric_limits<int>::max();
    options.traversalLimitInWords = ~std::uint64_t(0);
    const capnp_canonical::Limits none = {std::numeric_limits<std::int32_t>::max(), ~std::uint64_t(0)};
    kj::ArrayPtr<const capnp::word> segment = segment_of(deep), last = segment_of(deepest);
    capnp::SegmentArrayMessageReader reader(kj::arrayPtr(&segment, 1), options), near(kj::arrayPtr(&last, 1), options);
    report(refused([&] { return capnp_canonical::copy_flat(reader); }), "a MessageReader without a nesting limit");
    report(refused([&] { return capnp_canonical::copy_flat(reader, none); }), "the largest number");
    report(!capnp_canonical::words_is_canonical(segment, none), "is_canonical with the largest number");
    report(same(capnp_canonical::copy_flat(near, none), last), "the most levels");
    report(same(capnp_canonical::copy_flat(near), last), "the most levels, by the reader's own limit");
    report(capnp_canonical::words_is_canonical(last, none), "whether it is canonical");
    report(refused([&] { return capnp_canonical::words_copy(segment_of(deeper), none); }), "one level more");

    capnp::MallocMessageBuilder builder;
    auto at = builder.getRoot<capnp::AnyPointer>();
    for (std::size_t level = 0; level < levels; level++) {
        at = at.initAsAnyStruct(0, 1).getPointerSection()[0];
    }
    report(refused([&] { return capnp_canonical::copy_flat(builder); }), "a MessageBuilder of 300,000 levels");
    report(refused([&] { return capnp_canonical::digest(builder); }), "its digest");
    report(!capnp_canonical::is_canonical(builder), "whether it is canonical");
}

// More words than the default limit.
void test_large() {
    capnp::MallocMessageBuilder builder;
    auto people = builder.initRoot<Book>().initPeople(9);
    for (auto person : people) memset(person.initName(8 << 20).begin(), 'a', 8 << 20);
    auto theirs = capnp::canonicalize(builder.getRoot<Book>().asReader());
    report(same(capnp_canonical::copy_flat(builder), theirs), "a MessageBuilder of 72 MiB");
    report(same(capnp_canonical::copy_flat(builder.getRoot<Book>().asReader()), theirs), "and its struct");
}

// Builders, pointers and lists inside of a message.
void test_values(capnp::MallocMessageBuilder& builder) {
    auto book = builder.getRoot<Book>();
    auto theirs = capnp::canonicalize(book.asReader());
    report(same(capnp_canonical::copy_flat(book), theirs), "a builder of a struct");
    report(same(capnp_canonical::copy_flat(builder.getRoot<capnp::AnyStruct>()), theirs), "AnyStruct::Builder");
    report(same(capnp_canonical::copy_flat(builder.getRoot<capnp::AnyPointer>()), theirs), "AnyPointer::Builder");
    report(same(capnp_canonical::copy_flat(builder.getRoot<capnp::AnyPointer>().asReader()), theirs), "AnyPointer::Reader");
    report(same(capnp_canonical::canonicalize(book), theirs), "canonicalize of a builder");
    std::vector<std::uint8_t> buffer;
    report(same(capnp_canonical::copy_flat_into(buffer, book), theirs), "a builder into a vector");
    // a list is the root of its copy
    capnp::MallocMessageBuilder root;
    root.getRoot<capnp::AnyPointer>().setAs<capnp::List<Person>>(book.asReader().getPeople());
    auto words = capnp_canonical::copy_flat(root);
    report(same(capnp_canonical::words_copy(words), kj::arrayPtr(reinterpret_cast<capnp::word*>(words.data()), words.size() / 8)),
           "the words of a list");
    report(capnp_canonical::copy_flat(book.getPeople()) == words, "a builder of a list");
    report(capnp_canonical::copy_flat(book.asReader().getPeople()) == words, "a reader of a list");
    report(capnp_canonical::copy_flat(capnp::AnyList::Reader(book.asReader().getPeople())) == words, "AnyList::Reader");
    report(capnp_canonical::copy_flat(root.getRoot<capnp::AnyPointer>()) == words, "a pointer to a list");
    auto names = builder.getOrphanage().newOrphan<capnp::List<capnp::Text>>(3);
    names.get().set(1, "Ada");
    report(capnp_canonical::size(root).words > 0 && !capnp_canonical::copy_flat(names.getReader()).empty(), "a list of texts");
    capnp::MallocMessageBuilder empty;
    report(capnp_canonical::copy_flat(empty.getRoot<capnp::AnyPointer>()) == std::vector<std::uint8_t>(8), "a null pointer");
}

// The pointer of the field `ages`.
constexpr unsigned AGES = 8;

// Null isn't empty: what the getters read alike has other words, each of them canonical.
void test_empty() {
    std::vector<std::vector<std::uint8_t>> forms;
    auto add = [&](bool text, bool list, bool structs) {
        capnp::MallocMessageBuilder builder;
        auto person = builder.initRoot<Person>();
        if (text) person.setName("");
        if (list) person.initAges(0);
        if (structs) person.initBirth();
        auto reader = person.asReader();
        report(reader.getName().size() == 0 && reader.getAges().size() == 0 && reader.getBirth().getYear() == 0, "the same to getters");
        forms.push_back(capnp_canonical::copy_flat(builder));
        report(capnp_canonical::words_is_canonical(forms.back()), "canonical");
    };
    for (int i = 0; i < 8; i++) add(i & 1, i & 2, i & 4);
    // an empty list of larger elements
    capnp::MallocMessageBuilder builder;
    capnp::AnyStruct::Builder(builder.initRoot<Person>()).getPointerSection()[AGES].initAsAnyList(capnp::ElementSize::FOUR_BYTES, 0);
    report(!builder.getRoot<Person>().hasFriends() && builder.getRoot<Person>().hasAges(), "the pointer of ages");
    report(builder.getRoot<Person>().asReader().getAges().size() == 0, "an empty list of larger elements");
    forms.push_back(capnp_canonical::copy_flat(builder));
    bool differ = true;
    for (std::size_t i = 0; i < forms.size(); i++) {
        for (std::size_t j = 0; j < i; j++) differ = differ && forms[i] != forms[j];
    }
    report(differ, "all of them differ");
    // numbers, and structs that begin with them
    capnp::MallocMessageBuilder numbers, structs;
    auto list = numbers.getRoot<capnp::AnyPointer>().initAs<capnp::List<std::uint64_t>>(2);
    auto larger = structs.getRoot<capnp::AnyPointer>().initAs<capnp::List<Person>>(2);
    for (unsigned i = 0; i < 2; i++) list.set(i, 7), larger[i].setId(7);
    auto read = structs.getRoot<capnp::AnyPointer>().asReader().getAs<capnp::List<std::uint64_t>>();
    report(read.size() == 2 && read[0] == 7 && read[1] == 7, "structs are read as numbers");
    report(capnp_canonical::copy_flat(numbers) != capnp_canonical::copy_flat(structs), "and have other words");
}

// What is read inside of what is written to.
void test_overlap(capnp::MallocMessageBuilder& builder) {
    auto frame = capnp::messageToFlatArray(builder);
    capnp::FlatArrayMessageReader reader(frame);
    auto refused = [](const char* what, auto call) {
        try {
            static_cast<void>(call());
            report(false, what);
        } catch (const std::invalid_argument&) {
            report(true, what);
        }
    };
    refused("canonicalize in place", [&] { return capnp_canonical::canonicalize_into(frame, reader); });
    refused("canonicalize into a segment", [&] { return capnp_canonical::canonicalize_into(frame.slice(frame.size() - 1, frame.size()), reader); });
    std::size_t count = 0;
    for (capnp_canonical::Bytes it : capnp_canonical::Frames(capnp::messageToFlatArray(builder))) {
        count += capnp_canonical::copy_flat(it) == capnp_canonical::copy_flat(reader);
    }
    report(count == 1, "Frames of an array that nothing else keeps");
}

// Structs inside of a message.
void test_places(capnp::MallocMessageBuilder& builder) {
    Person::Reader person = builder.getRoot<Book>().asReader().getPeople()[1];
    auto theirs = capnp::canonicalize(person);
    report(same(capnp_canonical::copy_flat(person), theirs), "a struct of a list");
    capnp::AnyStruct::Reader any = person;
    report(same(capnp_canonical::copy_flat(any), theirs), "AnyStruct::Reader");
    report(same(capnp_canonical::canonicalize(any), theirs), "canonicalize of AnyStruct::Reader");
    auto framed = capnp_canonical::copy(person);
    report(framed.size() == 8 + theirs.asBytes().size(), "the frame of a struct");
    report(capnp_canonical::is_canonical(framed), "which is canonical");
}

void test_words(capnp::MallocMessageBuilder& builder) {
    auto theirs = capnp::canonicalize(builder.getRoot<Book>().asReader());
    report(same(capnp_canonical::canonicalize(builder), theirs), "canonicalize");
    report(same(capnp_canonical::words_copy(theirs), theirs), "what capnp::canonicalize gives, as words");
    report(capnp_canonical::words_is_canonical(theirs), "it is canonical");
    auto room = kj::heapArray<capnp::word>(theirs.size() + 5);
    for (int round = 0; round < 2; round++) {
        auto written = capnp_canonical::canonicalize_into(room, builder);
        report(same(written, theirs) && written.begin() == room.begin(), "into an array that is used again");
    }
    try {
        capnp_canonical::canonicalize_into(room.slice(0, 3), builder);
        report(false, "no refusal");
    } catch (const capnp_canonical::Error& error) {
        report(error.number() == CAPNP_CANONICAL_NO_ROOM && error.wanted() == theirs.asBytes().size(), "too little room");
    }
    std::vector<std::uint8_t> buffer;
    report(same(capnp_canonical::copy_flat_into(buffer, builder), theirs), "into a vector");
    Person::Reader person = builder.getRoot<Book>().asReader().getPeople()[0];
    report(same(capnp_canonical::copy_flat_into(buffer, person), capnp::canonicalize(person)), "and again");
}

int main() {
    capnp::MallocMessageBuilder builder(16, capnp::AllocationStrategy::FIXED_SIZE);
    build(builder.initRoot<Book>());
    test_messages(builder);
    test_prefixes(builder);
    test_equal(builder);
    test_packing(builder);
    test_places(builder);
    test_words(builder);
    test_values(builder);
    test_limits();
    test_deepest();
    test_large();
    test_empty();
    test_overlap(builder);
    return failed ? 1 : 0;
}
