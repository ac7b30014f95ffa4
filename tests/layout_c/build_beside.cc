// Makes random calls that build with capnp_layout.h and with the builders of C++ Cap'n Proto, side by side. Both messages are
// then read by C++: they have to be the same values with sections and elements of the same sizes, the same words in canonical
// form, and the same bytes. A call that one of them refuses has to be refused by both.
//
//     build_beside LISTS [SEED]
//
// Each list has up to 60 calls: structs, lists of each kind, texts, data, numbers, bools, elements, objects that are
// cleared, set again, opened or made wider, and copies from messages that were built before. The buffer is dirty, and
// large enough, or grows as calls want room. Capabilities aren't set: C++ takes only live ones. The last line is
// `N passed, M failed`.
#include <capnp/any.h>
#include <capnp/layout.h>
#include <capnp/message.h>
#include <capnp/serialize.h>
#include <kj/exception.h>

#include <cstdio>
#include <cstdlib>
#include <cstring>
#include <map>
#include <string>
#include <vector>

#include "capnp_layout.h"

// What an AnyPointer is inside of C++.
struct Inside {
    typedef capnp::_::PointerBuilder Builder;
};

namespace capnp {
namespace _ {
template <>
struct Kind_<Inside, void> {
    static constexpr Kind kind = Kind::OTHER;
};

template <>
struct PointerHelpers<Inside, Kind::OTHER> {
    static PointerBuilder get(PointerBuilder builder) { return builder; }
};
} // namespace _
} // namespace capnp

using capnp::AnyPointer;
using capnp::ElementSize;
using capnp::_::ListBuilder;
using capnp::_::PointerBuilder;
using capnp::_::StructBuilder;

static uint64_t state = UINT64_C(88172645463325252);

static uint64_t any() {
    state ^= state << 13;
    state ^= state >> 7;
    state ^= state << 17;
    return state;
}

static uint32_t below(uint32_t n) { return (uint32_t)(any() % n); }

// Sections of up to 4 words and pointers, and sometimes of more.
static uint16_t few() { return (uint16_t)below(below(20) ? 5 : 40); }

static uint32_t some() { return below(below(30) ? 6 : 200); }

// Whether two values are the same, with sections and elements of the same sizes; and how deep the first one is.
struct Comparison {
    int deepest = 0;

    bool pointers(capnp::List<AnyPointer>::Reader a, capnp::List<AnyPointer>::Reader b, int depth) {
        if (a.size() != b.size()) return false;
        for (uint32_t i = 0; i < a.size(); i++) {
            if (!pointer(a[i], b[i], depth)) return false;
        }
        return true;
    }

    bool structs(capnp::AnyStruct::Reader a, capnp::AnyStruct::Reader b, int depth) {
        return a.getDataSection() == b.getDataSection() && pointers(a.getPointerSection(), b.getPointerSection(), depth + 1);
    }

    bool lists(capnp::AnyList::Reader a, capnp::AnyList::Reader b, int depth) {
        if (a.getElementSize() != b.getElementSize() || a.size() != b.size()) return false;
        if (a.getElementSize() == ElementSize::POINTER) {
            return pointers(a.as<capnp::List<AnyPointer>>(), b.as<capnp::List<AnyPointer>>(), depth + 1);
        }
        if (a.getElementSize() != ElementSize::INLINE_COMPOSITE) return a.getRawBytes() == b.getRawBytes();
        auto as = a.as<capnp::List<capnp::AnyStruct>>(), bs = b.as<capnp::List<capnp::AnyStruct>>();
        for (uint32_t i = 0; i < as.size(); i++) {
            if (!structs(as[i], bs[i], depth + 1)) return false;
        }
        return true;
    }

    bool pointer(AnyPointer::Reader a, AnyPointer::Reader b, int depth) {
        if (depth > deepest) deepest = depth;
        if (a.getPointerType() != b.getPointerType()) return false;
        switch (a.getPointerType()) {
        case capnp::PointerType::NULL_: return true;
        case capnp::PointerType::STRUCT: return structs(a.getAs<capnp::AnyStruct>(), b.getAs<capnp::AnyStruct>(), depth);
        case capnp::PointerType::LIST: return lists(a.getAs<capnp::AnyList>(), b.getAs<capnp::AnyList>(), depth);
        default: return false;
        }
    }
};

// A struct, a list and a pointer of both messages.
struct Struct {
    struct capnp_struct_builder mine;
    StructBuilder theirs;
};

struct List {
    struct capnp_list_builder mine;
    ListBuilder theirs;
};

struct Pointer {
    struct capnp_struct_builder of;
    uint16_t index;
    PointerBuilder theirs;
};

// A buffer of its own size at a new address each time, so that the address sanitizer sees a write outside of it.
static bool grow(struct capnp_builder *message, size_t wanted) {
    auto larger = (uint8_t *)malloc(wanted + 8);
    if (!larger) return false;
    memset(larger, 0xaa, wanted + 8);
    memcpy(larger, message->bytes - 8, 8 + 8 * (size_t)message->used);
    free(message->bytes - 8);
    message->bytes = larger + 8;
    message->room = wanted;
    return true;
}

static std::map<std::string, long> counts;
static std::vector<std::vector<capnp::word>> before;

static std::vector<uint8_t> bytes() {
    std::vector<uint8_t> made(below(20) ? below(20) : below(3000));
    for (auto &one : made) one = (uint8_t)any();
    return made;
}

// One list of calls.
class Both {
public:
    struct capnp_builder mine;
    capnp::MallocMessageBuilder theirs;

    Both(kj::ArrayPtr<capnp::word> scratch) : theirs(scratch) {
        size_t size = below(2) ? 16 + below(100) : 1 << 16;
        auto buffer = (uint8_t *)malloc(size);
        if (!buffer) abort();
        memset(buffer, 0xaa, size);
        capnp_start(&mine, buffer, size);
        mine.grow = grow;
        open(Pointer{capnp_root_pointer(&mine), 0, theirs.getRoot<AnyPointer>().getAs<Inside>()});
    }

    ~Both() { free(mine.bytes - 8); }

    // Makes a call. Returns false if only one of both refuses it.
    bool call() {
        if (below(16) == 0) return open(Pointer{capnp_root_pointer(&mine), 0, theirs.getRoot<AnyPointer>().getAs<Inside>()});
        uint32_t which = below(12);
        if (which < 2 && !structs.empty()) return set_field(structs[below((uint32_t)structs.size())]);
        if (which < 4 && !lists.empty()) return set_element(lists[below((uint32_t)lists.size())]);
        Pointer at;
        return !pointer(at) || set_pointer(at, below(9));
    }

private:
    std::vector<Struct> structs;
    std::vector<List> lists;

    bool done(const char *what) {
        counts[what]++;
        return mine.refusal == 0;
    }

    bool pointer(Pointer &at) {
        if (!lists.empty() && below(3) == 0) {
            auto &list = lists[below((uint32_t)lists.size())];
            if (list.mine.size == CAPNP_POINTER && list.mine.count > 0) {
                uint32_t i = below(list.mine.count);
                at = Pointer{capnp_builder_element(&list.mine, i), 0, list.theirs.getPointerElement(i)};
                return true;
            }
        }
        auto &of = structs[below((uint32_t)structs.size())];
        if (of.mine.place.pointers == 0) return false;
        auto index = (uint16_t)below(of.mine.place.pointers);
        at = Pointer{of.mine, index, of.theirs.getPointerField(index)};
        return true;
    }

    bool set_field(Struct &at) {
        uint32_t data = 8u * at.mine.place.data_words;
        if (data == 0) return true;
        uint64_t value = any(), missing = below(2) ? 0 : any();
        switch (below(10)) {
        case 0: {
            uint32_t bit = below(8 * data);
            capnp_set_bool(&at.mine, bit, value & 1, missing & 1);
            at.theirs.setDataField<bool>(bit, value & 1, missing & 1);
            break;
        }
#define FIELD(CASE, NAME, TYPE, MASK)                                                                       \
    case CASE: {                                                                                            \
        uint32_t offset = below(data / sizeof(TYPE));                                                       \
        capnp_set_##NAME(&at.mine, offset * (uint32_t)sizeof(TYPE), (TYPE)value, (TYPE)missing);            \
        at.theirs.setDataField<TYPE>(offset, (TYPE)value, (MASK)(TYPE)missing);                             \
        break;                                                                                              \
    }
            FIELD(1, u8, uint8_t, uint8_t)
            FIELD(2, u16, uint16_t, uint16_t)
            FIELD(3, u32, uint32_t, uint32_t)
            FIELD(4, u64, uint64_t, uint64_t)
            FIELD(5, i8, int8_t, int8_t)
            FIELD(6, i16, int16_t, int16_t)
            FIELD(7, i32, int32_t, int32_t)
            FIELD(8, i64, int64_t, int64_t)
#undef FIELD
        default: {
            uint32_t offset = below(data / 8);
            capnp_set_f64(&at.mine, 8 * offset, (double)(int64_t)value, missing);
            at.theirs.setDataField<double>(offset, (double)(int64_t)value, missing);
        }
        }
        return done("fields");
    }

    bool set_element(List &at) {
        if (at.mine.count == 0) return true;
        uint32_t i = below(at.mine.count);
        uint64_t value = any();
        switch (at.mine.size) {
        case CAPNP_BIT:
            capnp_set_element_bool(&at.mine, i, value & 1);
            at.theirs.setDataElement<bool>(i, value & 1);
            break;
        case CAPNP_BYTE:
            capnp_set_element_u8(&at.mine, i, (uint8_t)value);
            at.theirs.setDataElement<uint8_t>(i, (uint8_t)value);
            break;
        case CAPNP_TWO_BYTES:
            capnp_set_element_i16(&at.mine, i, (int16_t)value);
            at.theirs.setDataElement<int16_t>(i, (int16_t)value);
            break;
        case CAPNP_FOUR_BYTES:
            capnp_set_element_f32(&at.mine, i, (float)(int32_t)value);
            at.theirs.setDataElement<float>(i, (float)(int32_t)value);
            break;
        case CAPNP_EIGHT_BYTES:
            capnp_set_element_u64(&at.mine, i, value);
            at.theirs.setDataElement<uint64_t>(i, value);
            break;
        case CAPNP_STRUCT: structs.push_back(Struct{capnp_builder_element(&at.mine, i), at.theirs.getStructElement(i)}); break;
        default: return true;
        }
        return done("elements");
    }

    bool set_pointer(Pointer at, uint32_t which) {
        switch (which) {
        case 0: return open(at);
        case 1: return make_struct(at);
        case 2: return make_structs(at);
        case 3:
        case 4: return make_list(at);
        case 5: return set_text(at);
        case 6: return set_data(at);
        case 7: return copy(at);
        default:
            if (below(3)) return make_struct(at);
            capnp_clear(&at.of, at.index);
            at.theirs.clear();
            return done("cleared");
        }
    }

    bool make_struct(Pointer &at) {
        uint16_t data = few(), pointers = few();
        auto made = capnp_init_struct(&at.of, at.index, data, pointers);
        structs.push_back(Struct{made, at.theirs.initStruct(capnp::_::StructSize(data, pointers))});
        return done("structs");
    }

    bool make_structs(Pointer &at) {
        uint16_t data = few(), pointers = few();
        uint32_t count = below(6);
        auto made = capnp_init_struct_list(&at.of, at.index, count, data, pointers);
        lists.push_back(List{made, at.theirs.initStructList(count, capnp::_::StructSize(data, pointers))});
        return done("lists of structs");
    }

    bool make_list(Pointer &at) {
        uint32_t size = below(7), count = some();
        auto made = capnp_init_list(&at.of, at.index, (enum capnp_size)size, count);
        lists.push_back(List{made, at.theirs.initList((ElementSize)size, count)});
        return done("lists");
    }

    bool set_text(Pointer &at) {
        auto content = bytes();
        content.push_back(0);
        size_t size = content.size() - 1;
        capnp_set_text_n(&at.of, at.index, (const char *)content.data(), size);
        at.theirs.setBlob<capnp::Text>(capnp::Text::Reader((const char *)content.data(), size));
        return done("texts");
    }

    bool set_data(Pointer &at) {
        auto content = bytes();
        capnp_set_data(&at.of, at.index, content.data(), content.size());
        at.theirs.setBlob<capnp::Data>(capnp::Data::Reader(content.data(), content.size()));
        return done("data");
    }

    // Opens the struct that is there, perhaps wider, or makes one. A list is refused by both, and stays as it is.
    bool open(Pointer at) {
        uint16_t data = few(), pointers = few();
        bool threw = false;
        auto found = capnp_open_struct(&at.of, at.index, data, pointers);
        StructBuilder other;
        try {
            other = at.theirs.getStruct(capnp::_::StructSize(data, pointers), nullptr);
        } catch (kj::Exception &) {
            threw = true;
        }
        if (threw) {
            counts["lists opened as structs"]++;
            if (mine.refusal != CAPNP_MESSAGE_CONTAINS_NON_STRUCT_POINTER_WHERE_STRUCT_POINTER_WAS_EXPECTED) return false;
            mine.refusal = 0;
            return true;
        }
        if (found.place.data_words != other.getDataSectionSize() / 64 || found.place.pointers != other.getPointerSectionSize()) return false;
        structs.push_back(Struct{found, other});
        return done("opened");
    }

    // Copies any value of a message that was built before.
    bool copy(Pointer &at) {
        if (before.empty()) return true;
        auto &words = before[below((uint32_t)before.size())];
        struct capnp_segment room[1];
        struct capnp_message message;
        if (capnp_open_frame(&message, (const uint8_t *)words.data(), 8 * words.size(), room, 1, nullptr) != 0) return false;
        bool is_limited = below(2);
        if (!is_limited) message.left = CAPNP_NO_LIMIT;
        capnp::FlatArrayMessageReader reader(kj::arrayPtr(words.data(), words.size()));
        if (below(8) == 0) {
            capnp_copy_pointer(&at.of, at.index, &message, 0, 0, message.nesting);
            at.theirs.copyFrom(capnp::_::PointerHelpers<capnp::AnyPointer>::getInternalReader(reader.getRoot<AnyPointer>()));
            return message.refusal == 0 && (message.left != CAPNP_NO_LIMIT) == is_limited && done("copies of whole messages");
        }
        auto from = capnp_root(&message);
        auto other = reader.getRoot<capnp::AnyStruct>();
        while (below(3) && other.getPointerSection().size() > 0) {
            auto index = (uint16_t)below(other.getPointerSection().size());
            if (other.getPointerSection()[index].getPointerType() != capnp::PointerType::STRUCT) break;
            from = capnp_get_struct(&from, index);
            other = other.getPointerSection()[index].getAs<capnp::AnyStruct>();
        }
        auto index = (uint16_t)below(other.getPointerSection().size() + 1);
        capnp_copy(&at.of, at.index, &from, index);
        if (index == other.getPointerSection().size()) {
            at.theirs.clear();
        } else {
            at.theirs.copyFrom(capnp::_::PointerHelpers<capnp::AnyPointer>::getInternalReader(other.getPointerSection()[index]));
        }
        return message.refusal == 0 && (message.left != CAPNP_NO_LIMIT) == is_limited && done("copies");
    }
};

// Compares both messages, and keeps the one that was built for copies.
static bool is_same(Both &both) {
    size_t size;
    auto frame = capnp_finish(&both.mine, &size);
    if (!frame) return false;
    std::vector<capnp::word> words(size / 8);
    memcpy(words.data(), frame, size);
    capnp::ReaderOptions options;
    options.nestingLimit = 10000;
    capnp::FlatArrayMessageReader reader(kj::arrayPtr(words.data(), words.size()), options);
    Comparison comparison;
    auto theirs = both.theirs.getRoot<AnyPointer>().asReader();
    if (!comparison.pointer(reader.getRoot<AnyPointer>(), theirs, 0)) return false;
    auto a = reader.getRoot<capnp::AnyStruct>().canonicalize(), b = theirs.getAs<capnp::AnyStruct>().canonicalize();
    if (a.asBytes() != b.asBytes()) return false;
    auto segments = both.theirs.getSegmentsForOutput();
    bool is_equal = segments.size() == 1 && segments[0].size() == words.size() - 1 && memcmp(segments[0].begin(), words.data() + 1, size - 8) == 0;
    if (!is_equal) return false;
    counts["words"] += (long)words.size() - 1;
    if (words.size() < 400 && comparison.deepest < 20) {
        if (before.size() < 16) before.push_back(words);
        before[below((uint32_t)before.size())] = words;
    }
    return true;
}

int main(int given, char **arguments) {
    long lists = given > 1 ? atol(arguments[1]) : 20000, good = 0, bad = 0;
    if (given > 2) state ^= strtoull(arguments[2], nullptr, 10) * UINT64_C(0x9e3779b97f4a7c15);
    std::vector<capnp::word> scratch(1 << 16);
    for (long i = 0; i < lists; i++) {
        Both both(kj::arrayPtr(scratch.data(), scratch.size()));
        bool is_so = true;
        for (uint32_t calls = 1 + below(60); is_so && calls > 0; calls--) is_so = both.call();
        is_so = is_so && is_same(both);
        if (!is_so && bad < 5) printf("list %ld: refusal %u\n", i, (unsigned)both.mine.refusal);
        *(is_so ? &good : &bad) += 1;
    }
    for (auto &[name, count] : counts) printf("%s: %ld\n", name.c_str(), count);
    printf("%ld passed, %ld failed\n", good, bad);
    return bad != 0;
}
