// Reads mutated address books with capnp_layout.h and with the getters of C++ Cap'n Proto. Both have to read the same, or
// both have to refuse. Then validates them, and follows every pointer by AnyPointer in C++: both have to get to the end, or
// both have to refuse. After a validation reading takes nothing, and is refused only for the kind of an object.
//
//     beside ROUNDS [SEED]
//
// The books have 1 to 30 people, in one segment or in several with far pointers. Messages that one of them alone refuses are
// counted apart if the reason is known: C++ doesn't look whether an object without words is inside of its segment, and takes
// a tag with a negative number of elements for one of fewer; and it refuses a two-word landing pad whose first word isn't a
// far pointer, of which Rust's readers and these use the segment and the position. The last line is `N passed, M failed`.
#include <capnp/any.h>
#include <capnp/message.h>
#include <capnp/serialize.h>
#include <kj/exception.h>

#include <cstdio>
#include <cstdlib>
#include <cstring>
#include <string>
#include <vector>

#include "cpp/addressbook.capnp.h"
#include "addressbook.capnp.h"

static uint64_t state = UINT64_C(88172645463325252);

static uint64_t any() {
    state ^= state << 13;
    state ^= state >> 7;
    state ^= state << 17;
    return state;
}

static uint32_t below(uint32_t n) { return (uint32_t)(any() % n); }

struct Sum {
    uint64_t value = 0;
    void add(uint64_t more) { value = value * 31 + more; }
    void add(const char *bytes, size_t size) {
        add(size);
        for (size_t i = 0; i < size; i++) add((unsigned char)bytes[i]);
    }
};

// Any text; often an empty one.
static std::string text() { return std::string(below(4) ? below(20) : 0, (char)('a' + below(26))); }

static kj::Array<capnp::word> book() {
    capnp::MallocMessageBuilder message(below(2) ? 4096 : 9 + below(60), capnp::AllocationStrategy::FIXED_SIZE);
    auto people = message.initRoot<AddressBook>().initPeople(1 + below(30));
    for (auto person : people) {
        person.setId((uint32_t)any());
        if (below(5)) person.setName(text().c_str());
        if (below(5)) person.setEmail(text().c_str());
        if (below(5)) {
            for (auto phone : person.initPhones(below(4))) {
                if (below(5)) phone.setNumber(text().c_str());
                phone.setType((Person::PhoneNumber::Type)below(4));
            }
        }
        switch (below(4)) {
        case 0: person.getEmployment().setUnemployed(); break;
        case 1: person.getEmployment().setEmployer(text().c_str()); break;
        case 2: person.getEmployment().setSchool(text().c_str()); break;
        default: person.getEmployment().setSelfEmployed();
        }
    }
    return capnp::messageToFlatArray(message);
}

static void add(Sum &sum, struct capnp_text it) {
    if (it.text[it.size] != 0) abort();
    sum.add(it.text, it.size);
}

static uint64_t read_by_c(struct capnp_message *message) {
    Sum sum;
    auto book = addressbook_AddressBook_root(message);
    auto people = addressbook_AddressBook_people(&book);
    for (uint32_t i = 0; i < addressbook_Person_list_count(&people); i++) {
        auto person = addressbook_Person_list_at(&people, i);
        auto employment = addressbook_Person_get_employment(&person);
        auto phones = addressbook_Person_phones(&person);
        sum.add(addressbook_Person_id(&person));
        sum.add(addressbook_Person_has_name(&person));
        add(sum, addressbook_Person_name(&person));
        add(sum, addressbook_Person_email(&person));
        for (uint32_t k = 0; k < addressbook_Person_PhoneNumber_list_count(&phones); k++) {
            auto phone = addressbook_Person_PhoneNumber_list_at(&phones, k);
            add(sum, addressbook_Person_PhoneNumber_number(&phone));
            sum.add(addressbook_Person_PhoneNumber_type(&phone));
        }
        sum.add(addressbook_Person_employment_get_which(&employment));
        add(sum, addressbook_Person_employment_get_employer(&employment));
        add(sum, addressbook_Person_employment_get_school(&employment));
    }
    return sum.value;
}

static void add(Sum &sum, capnp::Text::Reader it) { sum.add(it.begin(), it.size()); }

static uint64_t read_by_cpp(capnp::MessageReader &message) {
    Sum sum;
    for (auto person : message.getRoot<AddressBook>().getPeople()) {
        auto employment = person.getEmployment();
        sum.add(person.getId());
        sum.add(person.hasName());
        add(sum, person.getName());
        add(sum, person.getEmail());
        for (auto phone : person.getPhones()) {
            add(sum, phone.getNumber());
            sum.add((uint16_t)phone.getType());
        }
        sum.add((uint16_t)employment.which());
        add(sum, employment.which() == Person::Employment::EMPLOYER ? employment.getEmployer() : capnp::Text::Reader(""));
        add(sum, employment.which() == Person::Employment::SCHOOL ? employment.getSchool() : capnp::Text::Reader(""));
    }
    return sum.value;
}

static uint64_t word_at(const struct capnp_message &message, uint64_t segment, uint64_t at) {
    uint64_t word = 0;
    if (segment < message.segments.count && at < message.segments.list[segment].size / 8) {
        memcpy(&word, message.segments.list[segment].bytes + 8 * at, 8);
    }
    return word;
}

// Whether C++ is known to read what the first refusal of C is about.
static bool is_explained(const struct capnp_message &message) {
    uint64_t segment = message.refused_segment, at = message.refused_word, word = word_at(message, segment, at), start;
    bool is_known = true;
    if ((word & 7) == 2) {
        segment = word >> 32, at = (uint32_t)word >> 3, word = word_at(message, segment, at);
    } else if ((word & 7) == 6) {
        uint64_t pad = word_at(message, word >> 32, (uint32_t)word >> 3);
        word = word_at(message, word >> 32, ((uint32_t)word >> 3) + 1), segment = pad >> 32, at = 0;
        start = (uint32_t)pad >> 3;
        is_known = false;
    }
    if (is_known) start = at + 1 + (uint64_t)((int64_t)(int32_t)(uint32_t)word >> 2);
    uint32_t bits = (uint32_t)(word >> 32) & 7, count = (uint32_t)(word >> 35);
    if (message.refusal == CAPNP_MESSAGE_CONTAINS_OUT_OF_BOUNDS_POINTER) {
        return (word & 3) == 0 ? word >> 32 == 0 : (word & 3) == 1 && (bits == 0 || (bits != 7 && count == 0));
    }
    // elements without words overrun nothing, and each of them is charged a word
    if (message.refusal == CAPNP_INLINE_COMPOSITE_LISTS_ELEMENTS_OVERRUN_ITS_WORD_COUNT || message.refusal == CAPNP_READ_LIMIT_EXCEEDED) {
        return (word & 3) == 1 && bits == 7 && ((uint32_t)word_at(message, segment, start) >> 31) != 0;
    }
    return false;
}

// Follows every pointer of a message.
struct Walk {
    void pointers(capnp::List<capnp::AnyPointer>::Reader all) {
        for (auto one : all) pointer(one);
    }

    void list(capnp::AnyList::Reader list) {
        if (list.getElementSize() == capnp::ElementSize::POINTER) pointers(list.as<capnp::List<capnp::AnyPointer>>());
        if (list.getElementSize() != capnp::ElementSize::INLINE_COMPOSITE) return;
        auto elements = list.as<capnp::List<capnp::AnyStruct>>();
        if (elements.size() == 0 || elements[0].getPointerSection().size() == 0) return;
        for (auto element : elements) pointers(element.getPointerSection());
    }

    void pointer(capnp::AnyPointer::Reader one) {
        switch (one.getPointerType()) {
        case capnp::PointerType::STRUCT: return pointers(one.getAs<capnp::AnyStruct>().getPointerSection());
        case capnp::PointerType::LIST: return list(one.getAs<capnp::AnyList>());
        default: return;
        }
    }
};

// A refusal for the kind of an object, not for a broken pointer or a limit.
static bool is_of_kind(uint32_t refusal) {
    return (refusal >= CAPNP_EXPECTED_A_POINTER_LIST_BUT_GOT_A_LIST_OF_DATA_ONLY_STRUCTS && refusal <= CAPNP_FOUND_STRUCT_LIST_WHERE_BIT_LIST_WAS_EXPECTED) ||
           (refusal >= CAPNP_MESSAGE_CONTAINS_LIST_POINTER_OF_NON_BYTES_WHERE_DATA_WAS_EXPECTED && refusal <= CAPNP_MESSAGE_CONTAINS_NULL_CAPABILITY_POINTER) ||
           refusal == CAPNP_MESSAGE_CONTAINS_TEXT_THAT_IS_NOT_NUL_TERMINATED;
}

struct Validations {
    long sound = 0, refused = 0, known = 0, pads = 0, limits = 0, other = 0, after = 0;

    // C++ charges landing pads twice here, so it gets a greater limit.
    void compare(std::vector<capnp::word> &words, struct capnp_message message) {
        bool threw = false, is_pad = false;
        try {
            capnp::ReaderOptions options;
            options.traversalLimitInWords = 4 << 20;
            capnp::FlatArrayMessageReader reader(kj::arrayPtr(words.data(), words.size()), options);
            Walk().pointer(reader.getRoot<capnp::AnyPointer>());
        } catch (kj::Exception &error) {
            threw = true;
            is_pad = strstr(error.getDescription().cStr(), "double-far pad must be far pointer") != nullptr;
        }
        if (capnp_validate(&message) != 0) {
            if (threw) refused++;
            else if (message.refusal == CAPNP_READ_LIMIT_EXCEEDED) limits++;
            else if (is_explained(message)) known++;
            else if (other++ < 5) printf("validated: refusal %u at word %u\n", (unsigned)message.refusal, (unsigned)message.refused_word);
            return;
        }
        if (is_pad) pads++;
        else if (threw) other++;
        else sound++;
        read_by_c(&message);
        if (message.left != CAPNP_NO_LIMIT || (message.refusal != 0 && !is_of_kind(message.refusal))) after++;
    }

    long failed() const { return other + after; }

    void print() const {
        printf("validated: %ld sound, %ld refused by both, %ld by C++ alone for a known reason; by C alone: %ld for a known reason, "
               "%ld by the lower limit; %ld otherwise; %ld refused after they were found sound\n",
               sound, refused, pads, known, limits, other, after);
    }
};

int main(int given, char **words) {
    long rounds = given > 1 ? atol(words[1]) : 1000, same = 0, refused = 0, known = 0, unknown = 0, pads = 0, by_cpp = 0, other = 0;
    if (given > 2) state ^= strtoull(words[2], nullptr, 10) * UINT64_C(0x9e3779b97f4a7c15);
    kj::Array<capnp::word> frame = book();
    Validations validations;
    for (long round = 0; round < rounds; round++) {
        if (round % 50 == 0) frame = book();
        std::vector<capnp::word> mutated(frame.begin(), frame.end());
        auto bytes = (uint8_t *)mutated.data();
        size_t size = 8 * mutated.size(), used;
        uint32_t count;
        memcpy(&count, bytes, 4);
        size_t table = 4 * (count + 2 + (count + 2) % 2);
        for (uint32_t k = below(4); k > 0; k--) bytes[table + any() % (size - table)] = below(3) ? (uint8_t)any() : (uint8_t)(1u << below(8));
        struct capnp_segment room[512];
        struct capnp_message message;
        if (capnp_open_frame(&message, bytes, size, room, 512, &used) != 0 || used != size || message.segments.count != count + 1) abort();
        // the root pointer takes a word here, and none in C++
        message.left = (1 << 20) + 1;
        validations.compare(mutated, message);
        uint64_t mine = read_by_c(&message), theirs = 0;
        bool threw = false, is_pad = false;
        try {
            capnp::ReaderOptions options;
            options.traversalLimitInWords = 1 << 20;
            capnp::FlatArrayMessageReader reader(kj::arrayPtr(mutated.data(), mutated.size()), options);
            theirs = read_by_cpp(reader);
        } catch (kj::Exception &error) {
            threw = true;
            is_pad = strstr(error.getDescription().cStr(), "double-far pad must be far pointer") != nullptr;
        }
        if (threw && message.refusal) refused++;
        else if (threw && is_pad) pads++;
        else if (threw) by_cpp++;
        else if (message.refusal && is_explained(message)) known++;
        else if (message.refusal) {
            if (unknown++ < 5) printf("refusal %u at word %u\n", (unsigned)message.refusal, (unsigned)message.refused_word);
        } else if (mine == theirs) same++;
        else other++;
    }
    printf("%ld messages: %ld read the same, %ld refused by both, %ld read differently; refused by C++ alone: %ld for a known "
           "reason, %ld for others; by C alone: %ld for a known reason, %ld for others\n",
           rounds, same, refused, other, pads, by_cpp, known, unknown);
    validations.print();
    printf("%ld passed, %ld failed\n", same + refused + known + pads + rounds - validations.failed(), other + by_cpp + unknown + validations.failed());
    return other + by_cpp + unknown + validations.failed() != 0;
}
