// How long it takes to read all fields of an address book of 1,000 people, to validate it, to check it, and to build it in a buffer that is
// large enough, in C and with C++ Cap'n Proto, in one process, in turn. What both build are the same bytes. times.sh compiles it.
//
//     times                  prints the times
//     times PART COUNT       runs a part COUNT times, for a profiler: read, unlimited, validate, check, build, cpp_read,
//                            cpp_walk or cpp_build
#include <capnp/any.h>
#include <capnp/message.h>
#include <capnp/serialize.h>

#include <algorithm>
#include <chrono>
#include <cstdio>
#include <cstdlib>
#include <cstring>
#include <deque>
#include <functional>
#include <map>
#include <string>
#include <vector>

#include "cpp/addressbook.capnp.h"
#include "times.h"

extern "C" {
uint64_t c_read(const uint8_t *bytes, size_t size, bool limited);
bool c_validate(const uint8_t *bytes, size_t size);
bool c_check(const uint8_t *frame, size_t size);
const uint8_t *c_build(const struct times_person *people, uint8_t *buffer, size_t size, size_t *built);
}

// The people, and their texts.
struct People {
    std::deque<std::string> texts;
    std::vector<times_person> all;

    times_text text(std::string it) {
        texts.push_back(std::move(it));
        return {texts.back().c_str(), texts.back().size()};
    }

    People() {
        for (uint32_t i = 0; i < TIMES_PEOPLE; i++) {
            times_person it = {};
            it.id = i * 7919;
            it.name = text("Person number " + std::to_string(i));
            it.email = text("person" + std::to_string(i) + "@example.com");
            it.phones = i % 3;
            for (uint32_t k = 0; k < i % 3; k++) {
                it.numbers[k] = text("555-" + std::to_string(i * 10 + k));
                it.types[k] = k == 0 ? 0 : 2;
            }
            it.employment = i % 4;
            it.place = text(i % 4 == 1 ? "Acme" : "MIT");
            all.push_back(it);
        }
    }
};

static capnp::Text::Reader of(times_text it) { return capnp::Text::Reader(it.text, it.size); }

static void cpp_build_person(const times_person &from, Person::Builder person) {
    person.setId(from.id);
    person.setName(of(from.name));
    person.setEmail(of(from.email));
    auto phones = person.initPhones(from.phones);
    for (uint32_t i = 0; i < from.phones; i++) {
        auto phone = phones[i];
        phone.setNumber(of(from.numbers[i]));
        phone.setType((Person::PhoneNumber::Type)from.types[i]);
    }
    auto employment = person.getEmployment();
    switch ((Person::Employment::Which)from.employment) {
    case Person::Employment::EMPLOYER: employment.setEmployer(of(from.place)); break;
    case Person::Employment::SCHOOL: employment.setSchool(of(from.place)); break;
    case Person::Employment::SELF_EMPLOYED: employment.setSelfEmployed(); break;
    default: employment.setUnemployed();
    }
}

static void cpp_build_book(const People &people, capnp::MessageBuilder &message) {
    auto list = message.initRoot<AddressBook>().initPeople(TIMES_PEOPLE);
    for (uint32_t i = 0; i < TIMES_PEOPLE; i++) cpp_build_person(people.all[i], list[i]);
}

// Builds into the scratch space, which is zero before and afterwards.
static uint64_t cpp_build(const People &people, kj::ArrayPtr<capnp::word> scratch) {
    capnp::MallocMessageBuilder message(scratch);
    cpp_build_book(people, message);
    auto segments = message.getSegmentsForOutput();
    return segments.size() == 1 ? segments[0].size() : 0;
}

static kj::Array<capnp::word> book(const People &people) {
    capnp::MallocMessageBuilder message(1 << 20);
    cpp_build_book(people, message);
    return capnp::messageToFlatArray(message);
}

static uint64_t text(capnp::Text::Reader it) { return it.size() + (unsigned char)it.cStr()[0]; }

static uint64_t cpp_read(kj::ArrayPtr<const capnp::word> words) {
    capnp::FlatArrayMessageReader reader(words);
    uint64_t sum = 0;
    for (auto person : reader.getRoot<AddressBook>().getPeople()) {
        sum += person.getId() + text(person.getName()) + text(person.getEmail());
        for (auto phone : person.getPhones()) sum += text(phone.getNumber()) + (uint16_t)phone.getType();
        auto employment = person.getEmployment();
        switch (employment.which()) {
        case Person::Employment::EMPLOYER: sum += employment.getEmployer().size(); break;
        case Person::Employment::SCHOOL: sum += employment.getSchool().size(); break;
        default: sum += 1;
        }
    }
    return sum;
}

// Follows every pointer by AnyPointer.
struct Walk {
    uint64_t seen = 0;

    void pointers(capnp::List<capnp::AnyPointer>::Reader all) {
        for (auto one : all) pointer(one);
    }

    void list(capnp::AnyList::Reader list) {
        if (list.getElementSize() == capnp::ElementSize::POINTER) pointers(list.as<capnp::List<capnp::AnyPointer>>());
        if (list.getElementSize() != capnp::ElementSize::INLINE_COMPOSITE) return;
        auto elements = list.as<capnp::List<capnp::AnyStruct>>();
        if (elements.size() == 0 || elements[0].getPointerSection().size() == 0) return;
        for (auto element : elements) pointers(element.getPointerSection());
    }

    void pointer(capnp::AnyPointer::Reader one) {
        seen++;
        switch (one.getPointerType()) {
        case capnp::PointerType::STRUCT: return pointers(one.getAs<capnp::AnyStruct>().getPointerSection());
        case capnp::PointerType::LIST: return list(one.getAs<capnp::AnyList>());
        default: return;
        }
    }
};

static uint64_t cpp_walk(kj::ArrayPtr<const capnp::word> words) {
    capnp::FlatArrayMessageReader reader(words);
    Walk walk;
    walk.pointer(reader.getRoot<capnp::AnyPointer>());
    return walk.seen;
}

using Part = std::function<uint64_t()>;

// Runs the parts in turn, and prints the least and the median time of each.
static void measure(const std::map<std::string, Part> &parts) {
    const int rounds = 400, inner = 10;
    std::map<std::string, std::vector<double>> times;
    for (int round = 0; round < rounds; round++) {
        for (auto &[name, part] : parts) {
            auto begun = std::chrono::steady_clock::now();
            for (int i = 0; i < inner; i++) {
                if (part() == 0) abort();
            }
            times[name].push_back(std::chrono::duration<double, std::micro>(std::chrono::steady_clock::now() - begun).count() / inner);
        }
    }
    for (auto &[name, all] : times) std::sort(all.begin(), all.end());
    for (auto &[name, all] : times) {
        auto &of = times[name == "validate" || name == "check" ? "cpp_walk" : name == "build" ? "cpp_build" : name.compare(0, 4, "cpp_") == 0 ? name : "cpp_read"];
        std::printf("%-10s least %7.2f, median %7.2f microseconds; over C++ %.3f, %.3f\n", name.c_str(), all[0], all[rounds / 2], all[0] / of[0],
                    all[rounds / 2] / of[rounds / 2]);
    }
}

int main(int given, char **words) {
    People people;
    auto frame = book(people);
    auto bytes = (const uint8_t *)frame.begin();
    size_t size = frame.size() * 8, built = 0;
    std::vector<uint8_t> buffer(size);
    std::vector<capnp::word> scratch(frame.size());
    std::map<std::string, Part> parts = {
        {"read", [&] { return c_read(bytes, size, true); }},
        {"unlimited", [&] { return c_read(bytes, size, false); }},
        {"validate", [&] { return (uint64_t)c_validate(bytes, size); }},
        {"check", [&] { return (uint64_t)c_check(bytes, size); }},
        {"cpp_read", [&] { return cpp_read(frame); }},
        {"cpp_walk", [&] { return cpp_walk(frame); }},
        {"build", [&] { return c_build(people.all.data(), buffer.data(), buffer.size(), &built) ? built : 0; }},
        {"cpp_build", [&] { return cpp_build(people, kj::arrayPtr(scratch.data(), scratch.size())); }},
    };
    if (given == 3) {
        uint64_t sum = 0;
        for (int i = std::atoi(words[2]); i > 0; i--) sum += parts.at(words[1])();
        return sum == 0;
    }
    if (c_read(bytes, size, true) != cpp_read(frame)) return 1;
    auto mine = c_build(people.all.data(), buffer.data(), buffer.size(), &built);
    if (!mine || built != size || memcmp(mine, bytes, size) != 0) return 1;
    std::printf("an address book of %zu bytes\n", size);
    measure(parts);
    return 0;
}
