// Canonical form of Cap'n Proto messages, for C++17 and later: capnp_canonical.h with containers and exceptions.
//
// You pass a message as a frame, which is what capnp::writeMessage and capnp::messageToFlatArray make, or as its
// segments. Raw words are a message of one segment without its segment table; canonical_words, copy_flat and
// capnp::canonicalize make them. Pass them only to the calls whose names begin with `words_`: a call that takes a frame
// may SUCCEED on raw words, and then reads ANOTHER value (capnp_canonical.h says why). The type Words, which
// canonical_words returns, isn't taken by the calls for frames. Unpack packed bytes first, with unpack.
//
// capnp_canonical_capnp.hpp has the same calls for the types of C++ Cap'n Proto: for a capnp::MessageReader or a
// capnp::MessageBuilder, and for the reader or builder of any struct, list or pointer inside a message. Include it, or
// define CAPNP_CANONICAL_WITH_CAPNP before this header, which then includes it. Nothing here depends on it.
//
// A call that is refused throws Error. It throws std::bad_alloc if there is no memory for a result, and
// std::invalid_argument if what it should write to overlaps what it should read. A call whose name begins with `try_`
// returns a Result in place of throwing Error. Without exceptions (-fno-exceptions), what would be thrown ends the
// process after a line on standard error, so use the calls named `try_` there, and compile all files of a program in
// the same way. No call keeps anything, so several threads may call at once. What capnp_canonical.h says about limits,
// memory and stack holds here too.
#ifndef CAPNP_CANONICAL_HPP
#define CAPNP_CANONICAL_HPP

#include "capnp_canonical.h"

#include <algorithm>
#include <array>
#include <cstddef>
#include <cstdint>
#include <cstdio>
#include <cstdlib>
#include <cstring>
#include <initializer_list>
#include <iterator>
#include <limits>
#include <memory>
#include <optional>
#include <stdexcept>
#include <string>
#include <string_view>
#include <type_traits>
#include <utility>
#include <variant>
#include <vector>

// What makes a compiler that knows it warn of a view whose bytes are gone.
#define CAPNP_CANONICAL_LIFETIMEBOUND
#define CAPNP_CANONICAL_VIEW
#ifdef __has_cpp_attribute
#if __has_cpp_attribute(clang::lifetimebound)
#undef CAPNP_CANONICAL_LIFETIMEBOUND
#define CAPNP_CANONICAL_LIFETIMEBOUND [[clang::lifetimebound]]
#elif __has_cpp_attribute(msvc::lifetimebound)
#undef CAPNP_CANONICAL_LIFETIMEBOUND
#define CAPNP_CANONICAL_LIFETIMEBOUND [[msvc::lifetimebound]]
#endif
#if __has_cpp_attribute(gsl::Pointer)
#undef CAPNP_CANONICAL_VIEW
#define CAPNP_CANONICAL_VIEW [[gsl::Pointer]]
#endif
#endif

// An exception that passes from one shared object to another has a visible type, with -fvisibility=hidden too.
#ifdef __GNUC__
#define CAPNP_CANONICAL_VISIBLE __attribute__((visibility("default")))
#else
#define CAPNP_CANONICAL_VISIBLE
#endif

namespace capnp_canonical {

// The types that calls take and return. They have a namespace of their own so that argument-dependent lookup, for example of
// `using std::size; size(bytes)`, doesn't find the calls of capnp_canonical for them. Use them by their names below.
namespace types {

// The limits for reading a message. The defaults are those of capnp::ReaderOptions.
struct Limits {
    // How deep structs and lists may be nested, and therefore how much stack a call takes: 0.8 MB for 1,024 levels. A
    // number above CAPNP_CANONICAL_MAX_NESTING, 1,024, counts as 1,024. For deeper messages, call capnp_canonical.h on a
    // thread with the stack that they need.
    std::int32_t nesting = CAPNP_CANONICAL_NESTING;
    // How many words may be read, and how many a frame may have.
    std::uint64_t words = CAPNP_CANONICAL_WORDS;

    friend constexpr bool operator==(Limits a, Limits b) noexcept {
        return a.nesting == b.nesting && a.words == b.words;
    }
    friend constexpr bool operator!=(Limits a, Limits b) noexcept { return !(a == b); }
};

// The place of a message in a stream.
struct Place {
    // Its number, counted from 1; 0 if it isn't in a stream.
    std::uint64_t message = 0;
    // The byte where its frame starts.
    std::uint64_t byte = 0;

    friend constexpr bool operator==(Place a, Place b) noexcept { return a.message == b.message && a.byte == b.byte; }
    friend constexpr bool operator!=(Place a, Place b) noexcept { return !(a == b); }
};

// The place of a pointer in a message.
struct Pointer {
    // The number of the segment.
    std::uint64_t segment;
    // The position in the segment, in words.
    std::uint32_t word;

    // Such as `segment 0, word 17`.
    [[nodiscard]] std::string text() const {
        return "segment " + std::to_string(segment) + ", word " + std::to_string(word);
    }

    // In order of segments, and of words within one.
    friend constexpr bool operator==(Pointer a, Pointer b) noexcept {
        return a.segment == b.segment && a.word == b.word;
    }
    friend constexpr bool operator!=(Pointer a, Pointer b) noexcept { return !(a == b); }
    friend constexpr bool operator<(Pointer a, Pointer b) noexcept {
        return a.segment < b.segment || (a.segment == b.segment && a.word < b.word);
    }
};

// Why a call is refused. capnp_canonical.h says what each name means. A newer library may return others.
enum class Code : std::uint32_t {
    done = CAPNP_CANONICAL_DONE,
    no_room = CAPNP_CANONICAL_NO_ROOM,
    no_message = CAPNP_CANONICAL_NO_MESSAGE,
    segment_is_not_whole_words = CAPNP_CANONICAL_SEGMENT_IS_NOT_WHOLE_WORDS,
    too_many_segments = CAPNP_CANONICAL_TOO_MANY_SEGMENTS,
    message_too_long = CAPNP_CANONICAL_MESSAGE_TOO_LONG,
    truncated = CAPNP_CANONICAL_TRUNCATED,
    allocation_failed = CAPNP_CANONICAL_ALLOCATION_FAILED,
    cannot_create_a_canonical_message_with_a_capability = CAPNP_CANONICAL_CANNOT_CREATE_A_CANONICAL_MESSAGE_WITH_A_CAPABILITY,
    cant_handle_non_struct_inline_composite = CAPNP_CANONICAL_CANT_HANDLE_NON_STRUCT_INLINE_COMPOSITE,
    inline_composite_lists_elements_overrun_its_word_count = CAPNP_CANONICAL_INLINE_COMPOSITE_LISTS_ELEMENTS_OVERRUN_ITS_WORD_COUNT,
    inline_composite_lists_of_non_struct_type_are_not_supported = CAPNP_CANONICAL_INLINE_COMPOSITE_LISTS_OF_NON_STRUCT_TYPE_ARE_NOT_SUPPORTED,
    invalid_segment_id = CAPNP_CANONICAL_INVALID_SEGMENT_ID,
    malformed_double_far_pointer = CAPNP_CANONICAL_MALFORMED_DOUBLE_FAR_POINTER,
    message_contains_out_of_bounds_pointer = CAPNP_CANONICAL_MESSAGE_CONTAINS_OUT_OF_BOUNDS_POINTER,
    message_is_too_deeply_nested = CAPNP_CANONICAL_MESSAGE_IS_TOO_DEEPLY_NESTED,
    message_is_too_deeply_nested_or_contains_cycles = CAPNP_CANONICAL_MESSAGE_IS_TOO_DEEPLY_NESTED_OR_CONTAINS_CYCLES,
    message_too_large = CAPNP_CANONICAL_MESSAGE_TOO_LARGE,
    nesting_limit_exceeded = CAPNP_CANONICAL_NESTING_LIMIT_EXCEEDED,
    no_such_place = CAPNP_CANONICAL_NO_SUCH_PLACE,
    read_limit_exceeded = CAPNP_CANONICAL_READ_LIMIT_EXCEEDED,
    unknown_pointer_type = CAPNP_CANONICAL_UNKNOWN_POINTER_TYPE,
};

// What sort of refusal it is. capnp_canonical.h says what each name means.
enum class Class : std::uint32_t {
    none = CAPNP_CANONICAL_CLASS_NONE,
    malformed = CAPNP_CANONICAL_CLASS_MALFORMED,
    limit = CAPNP_CANONICAL_CLASS_LIMIT,
    capability = CAPNP_CANONICAL_CLASS_CAPABILITY,
    room = CAPNP_CANONICAL_CLASS_ROOM,
    memory = CAPNP_CANONICAL_CLASS_MEMORY,
    path = CAPNP_CANONICAL_CLASS_PATH,
    other = CAPNP_CANONICAL_CLASS_OTHER,
};

// Why a message isn't canonical. capnp_canonical.h says what each name means.
enum class Reason : std::uint32_t {
    none = CAPNP_CANONICAL_REASON_NONE,
    segment_count = CAPNP_CANONICAL_REASON_SEGMENT_COUNT,
    no_pointer = CAPNP_CANONICAL_REASON_NO_POINTER,
    far_pointer = CAPNP_CANONICAL_REASON_FAR_POINTER,
    capability = CAPNP_CANONICAL_REASON_CAPABILITY,
    unknown_pointer = CAPNP_CANONICAL_REASON_UNKNOWN_POINTER,
    empty_struct_place = CAPNP_CANONICAL_REASON_EMPTY_STRUCT_PLACE,
    object_place = CAPNP_CANONICAL_REASON_OBJECT_PLACE,
    padding = CAPNP_CANONICAL_REASON_PADDING,
    data_section = CAPNP_CANONICAL_REASON_DATA_SECTION,
    pointer_section = CAPNP_CANONICAL_REASON_POINTER_SECTION,
    element_words = CAPNP_CANONICAL_REASON_ELEMENT_WORDS,
    element_data = CAPNP_CANONICAL_REASON_ELEMENT_DATA,
    element_pointers = CAPNP_CANONICAL_REASON_ELEMENT_POINTERS,
    words_behind = CAPNP_CANONICAL_REASON_WORDS_BEHIND,
};

// What an object of a message is.
enum class Kind : std::uint32_t {
    list_of_void = CAPNP_CANONICAL_KIND_LIST_OF_VOID,
    list_of_bits = CAPNP_CANONICAL_KIND_LIST_OF_BITS,
    list_of_bytes = CAPNP_CANONICAL_KIND_LIST_OF_BYTES,
    list_of_two_bytes = CAPNP_CANONICAL_KIND_LIST_OF_TWO_BYTES,
    list_of_four_bytes = CAPNP_CANONICAL_KIND_LIST_OF_FOUR_BYTES,
    list_of_eight_bytes = CAPNP_CANONICAL_KIND_LIST_OF_EIGHT_BYTES,
    list_of_pointers = CAPNP_CANONICAL_KIND_LIST_OF_POINTERS,
    list_of_structs = CAPNP_CANONICAL_KIND_LIST_OF_STRUCTS,
    structure = CAPNP_CANONICAL_KIND_STRUCT,
    capability = CAPNP_CANONICAL_KIND_CAPABILITY,
};

// Why a call is refused, and where. 57, 58 and 60 all mean that the message is nested too deeply: their class is Class::limit.
class Refusal {
public:
    // `number` is one of enum capnp_canonical_answer; `wanted` is how many bytes are needed, if the room is too small;
    // `looks_like` is what the bytes look like, if that is known; `pointer` is the pointer that is refused, if it is one.
    explicit constexpr Refusal(std::uint32_t number, Place place = {}, std::size_t wanted = 0, const char* looks_like = nullptr,
                               std::optional<Pointer> pointer = std::nullopt) noexcept
        : number_(number), place_(place), wanted_(wanted), looks_like_(looks_like), pointer_(pointer) {}

    [[nodiscard]] constexpr std::uint32_t number() const noexcept { return number_; }
    [[nodiscard]] constexpr Code code() const noexcept { return Code(number_); }
    [[nodiscard]] Class sort() const noexcept { return Class(capnp_canonical_class_of(number_)); }
    // The name, such as `Truncated`; empty if the number has none.
    [[nodiscard]] const char* name() const noexcept { return capnp_canonical_error_name(number_); }
    // Which message of a stream was refused.
    [[nodiscard]] constexpr Place place() const noexcept { return place_; }
    // How many bytes are needed, if the room is too small.
    [[nodiscard]] constexpr std::size_t wanted() const noexcept { return wanted_; }
    // The pointer at which the message is broken. None if the bytes aren't a frame or whole words, or if there is no room or
    // no memory, or the message is too large; and none from the calls for a part.
    [[nodiscard]] constexpr std::optional<Pointer> pointer() const noexcept { return pointer_; }
    // A sentence, such as
    // `message 2 at byte 40: Truncated: the bytes end inside a frame or a packed word; they look like text`, or
    // `MessageContainsOutOfBoundsPointer at segment 0, word 17: a pointer points outside its segment`.
    [[nodiscard]] std::string text() const {
        std::string text;
        if (place_.message) {
            text = "message " + std::to_string(place_.message) + " at byte " + std::to_string(place_.byte) + ": ";
        }
        text += capnp_canonical_error_name(number_);
        if (pointer_) text += " at " + pointer_->text();
        text += std::string(": ") + capnp_canonical_error_text(number_);
        if (wanted_) text += ", and " + std::to_string(wanted_) + " bytes are wanted";
        if (looks_like_) text += std::string("; they look like ") + looks_like_;
        return text;
    }

private:
    std::uint32_t number_;
    Place place_;
    std::size_t wanted_;
    const char* looks_like_;
    std::optional<Pointer> pointer_;
};

}  // namespace types

using types::Class;
using types::Code;
using types::Kind;
using types::Limits;
using types::Place;
using types::Pointer;
using types::Reason;
using types::Refusal;

// The exception of a call that is refused; `what` is the text of its Refusal.
class CAPNP_CANONICAL_VISIBLE Error : public std::runtime_error {
public:
    explicit Error(const Refusal& refusal) : std::runtime_error(refusal.text()), refusal_(refusal) {}
    explicit Error(std::uint32_t number, Place place = {}, std::size_t wanted = 0, const char* looks_like = nullptr,
                   std::optional<Pointer> pointer = std::nullopt)
        : Error(Refusal(number, place, wanted, looks_like, pointer)) {}

    [[nodiscard]] const Refusal& refusal() const noexcept { return refusal_; }
    [[nodiscard]] std::uint32_t number() const noexcept { return refusal_.number(); }
    [[nodiscard]] Code code() const noexcept { return refusal_.code(); }
    [[nodiscard]] Class sort() const noexcept { return refusal_.sort(); }
    [[nodiscard]] const char* name() const noexcept { return refusal_.name(); }
    [[nodiscard]] Place place() const noexcept { return refusal_.place(); }
    [[nodiscard]] std::size_t wanted() const noexcept { return refusal_.wanted(); }
    [[nodiscard]] std::optional<Pointer> pointer() const noexcept { return refusal_.pointer(); }

private:
    Refusal refusal_;
};

namespace types {
class Checked;
}

namespace detail {

// Throws an exception; without exceptions, says what it is and ends the process.
template <typename Exception>
[[noreturn]] void raise(const Exception& exception) {
#ifdef __cpp_exceptions
    throw exception;
#else
    std::fprintf(stderr, "%s\n", exception.what());
    std::abort();
#endif
}

}  // namespace detail

namespace types {

// What a call named `try_` returns: a value, or why the call is refused.
template <typename Value>
class [[nodiscard]] Result {
public:
    Result(const Value& value) : held_(std::in_place_index<0>, value) {}
    Result(Value&& value) : held_(std::in_place_index<0>, std::move(value)) {}
    Result(const Refusal& refusal) noexcept : held_(std::in_place_index<1>, refusal) {}

    [[nodiscard]] bool has_value() const noexcept { return held_.index() == 0; }
    // Whether there is a value. Not for what `try_check` returns: `if (try_check(message))` would not mean that the message is
    // canonical.
    template <typename It = Value, std::enable_if_t<!std::is_same_v<It, Checked>, int> = 0>
    explicit operator bool() const noexcept {
        return has_value();
    }
    // Precondition: there is a value.
    [[nodiscard]] Value& operator*() & noexcept CAPNP_CANONICAL_LIFETIMEBOUND { return *std::get_if<0>(&held_); }
    [[nodiscard]] const Value& operator*() const& noexcept CAPNP_CANONICAL_LIFETIMEBOUND { return *std::get_if<0>(&held_); }
    [[nodiscard]] Value&& operator*() && noexcept CAPNP_CANONICAL_LIFETIMEBOUND { return std::move(*std::get_if<0>(&held_)); }
    [[nodiscard]] Value* operator->() noexcept CAPNP_CANONICAL_LIFETIMEBOUND { return std::get_if<0>(&held_); }
    [[nodiscard]] const Value* operator->() const noexcept CAPNP_CANONICAL_LIFETIMEBOUND {
        return std::get_if<0>(&held_);
    }
    // Precondition: there is no value.
    [[nodiscard]] const Refusal& error() const noexcept CAPNP_CANONICAL_LIFETIMEBOUND {
        return *std::get_if<1>(&held_);
    }
    // The value. Throws Error if there is none.
    Value value() && {
        if (!has_value()) detail::raise(Error(error()));
        return std::move(*std::get_if<0>(&held_));
    }

private:
    std::variant<Value, Refusal> held_;
};

}  // namespace types

using types::Result;

namespace detail {

template <typename Element>
constexpr bool is_byte = std::is_same_v<Element, std::byte> || std::is_same_v<Element, unsigned char> ||
                         std::is_same_v<Element, char>;

template <typename Range>
using Element = std::remove_cv_t<std::remove_pointer_t<decltype(std::data(std::declval<const Range&>()))>>;

// Words and WordsView, which aren't bytes of a frame.
template <typename Range, typename = void>
constexpr bool are_words = false;
template <typename Range>
constexpr bool are_words<Range, std::void_t<typename Range::RawWords>> = true;

template <typename Range, typename = void>
constexpr bool holds_bytes = false;
template <typename Range>
constexpr bool holds_bytes<Range, std::void_t<Element<Range>>> = is_byte<Element<Range>> && !are_words<Range>;

// Whether a range owns its bytes: it has a destructor, or, like a std::array, its bytes are constant if it is.
template <typename Range, typename = void>
constexpr bool is_constant_with_its_bytes = false;
template <typename Range>
constexpr bool is_constant_with_its_bytes<Range, std::void_t<decltype(std::data(std::declval<Range&>()))>> =
    !std::is_same_v<decltype(std::data(std::declval<Range&>())), decltype(std::data(std::declval<const Range&>()))>;
template <typename Range>
constexpr bool owns_bytes = !std::is_trivially_destructible_v<Range> || is_constant_with_its_bytes<Range>;

// Whether objects of a type are words of 8 bytes. capnp_canonical_capnp.hpp says so of capnp::word.
template <typename Element>
constexpr bool is_word = false;

// A range whose begin() is a pointer to bytes or words, such as a kj::Array or kj::ArrayPtr.
template <typename Range>
using First = std::remove_cv_t<std::remove_pointer_t<decltype(std::declval<const Range&>().begin())>>;
template <typename Range, typename = void>
constexpr bool holds_words = false;
template <typename Range>
constexpr bool holds_words<Range, std::enable_if_t<std::is_pointer_v<decltype(std::declval<const Range&>().begin())>>> =
    !holds_bytes<Range> && !are_words<Range> &&
    (std::is_same_v<First<Range>, unsigned char> || std::is_same_v<First<Range>, std::byte> || is_word<First<Range>>);

// A range that owns its bytes and that nothing else keeps, such as the result of unpack.
template <typename Range>
using IfTemporary =
    std::enable_if_t<!std::is_lvalue_reference_v<Range> && owns_bytes<std::remove_cv_t<Range>> &&
                     (holds_bytes<std::remove_cv_t<Range>> || holds_words<std::remove_cv_t<Range>>)>;

}  // namespace detail

namespace types {

// A view of bytes at any address: a pointer and a size. A std::span, std::vector, std::array, std::string or
// std::string_view of bytes converts to it, and so does a kj::Array or kj::ArrayPtr of bytes. The bytes have
// to stay where they are as long as the view is used: `Bytes words = copy_flat(frame)` is a view of a vector that is
// gone.
class CAPNP_CANONICAL_VIEW Bytes {
public:
    constexpr Bytes() noexcept = default;
    Bytes(const void* data CAPNP_CANONICAL_LIFETIMEBOUND, std::size_t size, Place place = {}) noexcept
        : data_(static_cast<const std::uint8_t*>(data)), size_(size), place_(place) {}

    template <typename Range, std::enable_if_t<detail::holds_bytes<Range> && detail::owns_bytes<Range>, int> = 0>
    Bytes(const Range& range CAPNP_CANONICAL_LIFETIMEBOUND) noexcept : Bytes(std::data(range), std::size(range)) {}
    template <typename Range, std::enable_if_t<detail::holds_bytes<Range> && !detail::owns_bytes<Range>, int> = 0>
    Bytes(const Range& range) noexcept : Bytes(std::data(range), std::size(range)) {}

    template <typename Range, std::enable_if_t<detail::holds_words<Range> && detail::owns_bytes<Range>, int> = 0>
    Bytes(const Range& range CAPNP_CANONICAL_LIFETIMEBOUND) noexcept
        : Bytes(range.begin(), range.size() * sizeof(*range.begin())) {}
    template <typename Range, std::enable_if_t<detail::holds_words<Range> && !detail::owns_bytes<Range>, int> = 0>
    Bytes(const Range& range) noexcept : Bytes(range.begin(), range.size() * sizeof(*range.begin())) {}

    [[nodiscard]] const std::uint8_t* data() const noexcept { return data_; }
    [[nodiscard]] std::size_t size() const noexcept { return size_; }
    [[nodiscard]] bool empty() const noexcept { return size_ == 0; }
    [[nodiscard]] const std::uint8_t* begin() const noexcept { return data_; }
    [[nodiscard]] const std::uint8_t* end() const noexcept { return data_ + size_; }
    // A frame from Frames.
    [[nodiscard]] Place place() const noexcept { return place_; }

private:
    const std::uint8_t* data_ = nullptr;
    std::size_t size_ = 0;
    Place place_;
};

// Raw words: the canonical words of a value, which canonical_words returns and you store. The calls whose names begin
// with `words_` take them; those for frames don't.
class Words {
public:
    using RawWords = void;

    Words() = default;
    // Stored words.
    explicit Words(std::vector<std::uint8_t> words) noexcept : words_(std::move(words)) {}

    [[nodiscard]] const std::uint8_t* data() const noexcept CAPNP_CANONICAL_LIFETIMEBOUND { return words_.data(); }
    // The size in bytes.
    [[nodiscard]] std::size_t size() const noexcept { return words_.size(); }
    [[nodiscard]] bool empty() const noexcept { return words_.empty(); }
    [[nodiscard]] const std::uint8_t* begin() const noexcept CAPNP_CANONICAL_LIFETIMEBOUND { return words_.data(); }
    [[nodiscard]] const std::uint8_t* end() const noexcept CAPNP_CANONICAL_LIFETIMEBOUND {
        return words_.data() + words_.size();
    }
    // A view of the bytes, for anything but the calls for frames.
    [[nodiscard]] Bytes bytes() const noexcept CAPNP_CANONICAL_LIFETIMEBOUND { return {words_.data(), words_.size()}; }
    // The bytes themselves.
    [[nodiscard]] std::vector<std::uint8_t> release() && noexcept { return std::move(words_); }

    friend bool operator==(const Words& a, const Words& b) noexcept { return a.words_ == b.words_; }
    friend bool operator!=(const Words& a, const Words& b) noexcept { return a.words_ != b.words_; }
    friend bool operator<(const Words& a, const Words& b) noexcept { return a.words_ < b.words_; }

private:
    std::vector<std::uint8_t> words_;
};

// A view of raw words: of Words, or of bytes that you say are raw words by passing them.
class CAPNP_CANONICAL_VIEW WordsView {
public:
    using RawWords = void;

    constexpr WordsView() noexcept = default;
    WordsView(const void* data CAPNP_CANONICAL_LIFETIMEBOUND, std::size_t size) noexcept
        : data_(static_cast<const std::uint8_t*>(data)), size_(size) {}
    WordsView(const Words& words CAPNP_CANONICAL_LIFETIMEBOUND) noexcept : WordsView(words.data(), words.size()) {}
    WordsView(Bytes words) noexcept : WordsView(words.data(), words.size()) {}
    template <typename Range, std::enable_if_t<detail::holds_bytes<Range> || detail::holds_words<Range>, int> = 0>
    WordsView(const Range& range) noexcept : WordsView(Bytes(range)) {}

    [[nodiscard]] const std::uint8_t* data() const noexcept { return data_; }
    // The size in bytes.
    [[nodiscard]] std::size_t size() const noexcept { return size_; }
    [[nodiscard]] bool empty() const noexcept { return size_ == 0; }
    [[nodiscard]] const std::uint8_t* begin() const noexcept { return data_; }
    [[nodiscard]] const std::uint8_t* end() const noexcept { return data_ + size_; }
    [[nodiscard]] Bytes bytes() const noexcept { return {data_, size_}; }

private:
    const std::uint8_t* data_ = nullptr;
    std::size_t size_ = 0;
};

}  // namespace types

using types::Bytes;
using types::Words;
using types::WordsView;

namespace detail {

// A range of views of bytes: of the segments of a message.
template <typename Range, typename = void>
constexpr bool holds_segments = false;
template <typename Range>
constexpr bool holds_segments<Range, std::void_t<decltype(std::begin(std::declval<const Range&>())),
                                                 decltype(std::end(std::declval<const Range&>()))>> =
    !holds_bytes<Range> && !holds_words<Range> && !are_words<Range> &&
    std::is_convertible_v<decltype(*std::begin(std::declval<const Range&>())), Bytes>;

}  // namespace detail

namespace types {

// A view of the path to a part of a message: the indexes of pointers, from the root pointer on. An index is that of a
// pointer of a struct, or of an element of a list. The indexes have to stay where they are as long as the path is used:
// pass a list in braces to a call, as in `copy_flat_at(frame, {0})`.
class CAPNP_CANONICAL_VIEW Path {
public:
    Path(std::initializer_list<std::uint32_t> indexes CAPNP_CANONICAL_LIFETIMEBOUND) noexcept
        : Path(std::data(indexes), indexes.size()) {}
    Path(const std::vector<std::uint32_t>& indexes CAPNP_CANONICAL_LIFETIMEBOUND) noexcept
        : Path(indexes.data(), indexes.size()) {}
    Path(const std::uint32_t* indexes CAPNP_CANONICAL_LIFETIMEBOUND, std::size_t size) noexcept
        : indexes_(indexes), size_(size) {}

    [[nodiscard]] const std::uint32_t* data() const noexcept { return indexes_; }
    [[nodiscard]] std::size_t size() const noexcept { return size_; }

private:
    const std::uint32_t* indexes_;
    std::size_t size_;
};

// A view of the segments of a message. The size of each is a multiple of 8 bytes.
class Segments {
public:
    Segments() = default;
    Segments(std::initializer_list<Bytes> segments) {
        for (Bytes segment : segments) add(segment);
    }
    // A range of segments, such as a std::vector<Bytes>, or the result of MessageBuilder::getSegmentsForOutput.
    template <typename Range, std::enable_if_t<detail::holds_segments<Range>, int> = 0>
    Segments(const Range& segments) {
        for (const auto& segment : segments) add(Bytes(segment));
    }

    void add(Bytes segment) {
        segments_.push_back({segment.data(), segment.size()});
        bytes_ += segment.size();
    }
    // The bytes would be gone before the segments are read.
    template <typename Range, typename = detail::IfTemporary<Range>>
    void add(Range&& segment) = delete;

    [[nodiscard]] const capnp_canonical_segment* data() const noexcept { return segments_.data(); }
    // The number of segments.
    [[nodiscard]] std::size_t size() const noexcept { return segments_.size(); }
    // The total size in bytes.
    [[nodiscard]] std::size_t bytes() const noexcept { return bytes_; }

private:
    std::vector<capnp_canonical_segment> segments_;
    std::size_t bytes_ = 0;
};

// Why and where a message isn't canonical.
struct Fault {
    // A number of enum capnp_canonical_reason.
    std::uint32_t reason;
    std::uint64_t segment;
    // The position in the segment, in words.
    std::uint32_t word;

    // The reason by its name.
    [[nodiscard]] Reason code() const noexcept { return Reason(reason); }
    // The place of the word that is told.
    [[nodiscard]] Pointer place() const noexcept { return {segment, word}; }
    // The reason as text, such as `a list whose padding isn't zero`.
    [[nodiscard]] std::string reason_text() const { return capnp_canonical_fault_text(reason); }
    // Such as `a list whose padding isn't zero at segment 0, word 3`.
    [[nodiscard]] std::string text() const { return reason_text() + " at " + place().text(); }

    friend bool operator==(const Fault& a, const Fault& b) noexcept {
        return a.reason == b.reason && a.place() == b.place();
    }
    friend bool operator!=(const Fault& a, const Fault& b) noexcept { return !(a == b); }
};

// What `check` returns. It isn't a bool, because `if (check(message))` would mean neither yes nor no.
class Checked {
public:
    explicit Checked(std::optional<Fault> fault) noexcept : fault_(fault) {}
    explicit operator bool() const = delete;

    [[nodiscard]] bool is_canonical() const noexcept { return !fault_; }
    // Why and where the message isn't canonical. Throws std::bad_optional_access if it is.
    [[nodiscard]] const Fault& fault() const CAPNP_CANONICAL_LIFETIMEBOUND { return fault_.value(); }
    // `canonical`, or for example `not canonical: a list whose padding isn't zero at segment 0, word 3`.
    [[nodiscard]] std::string text() const { return fault_ ? "not canonical: " + fault_->text() : "canonical"; }

private:
    std::optional<Fault> fault_;
};

// The SHA-256 of the canonical words of a message.
using Digest = std::array<std::uint8_t, 32>;

// The size of what the root of a message leads to, without the root pointer and landing pads.
struct Size {
    std::uint64_t words;
    std::uint32_t capabilities;

    friend bool operator==(Size a, Size b) noexcept { return a.words == b.words && a.capabilities == b.capabilities; }
    friend bool operator!=(Size a, Size b) noexcept { return !(a == b); }
};

// How deep the value of a message is, how much it holds, and what reading it costs.
struct Extent {
    // The number of words of all objects, without landing pads, and of capabilities; 2^64 - 1 if there are more. An object
    // counts each time a pointer leads to it.
    std::uint64_t words;
    std::uint64_t capabilities;
    // The number of words that reading the whole value once takes from the traversal limit, with one for the root pointer.
    std::uint64_t cost;
    // The number of structs and lists that are nested in each other, at most.
    std::uint32_t depth;

    friend bool operator==(const Extent& a, const Extent& b) noexcept {
        return a.words == b.words && a.capabilities == b.capabilities && a.cost == b.cost && a.depth == b.depth;
    }
    friend bool operator!=(const Extent& a, const Extent& b) noexcept { return !(a == b); }
};

// An object of a message: its kind and place, and the pointer that leads to it. capnp_canonical.h says what each number is.
using Object = capnp_canonical_object;
// Its kind by its name.
[[nodiscard]] constexpr Kind kind_of(const Object& object) noexcept { return Kind(object.kind); }
// The index of the object that its pointer is in; none for the root pointer.
[[nodiscard]] constexpr std::optional<std::uint64_t> parent_of(const Object& object) noexcept {
    if (object.parent == CAPNP_CANONICAL_NO_PARENT) return std::nullopt;
    return object.parent;
}

// The objects of a message.
struct Walk {
    // Each object before those that its own pointers lead to. Null pointers and elements of lists of structs aren't among
    // them.
    std::vector<Object> objects;
    // The number of all objects, which may be more than `most`.
    std::size_t count = 0;
    // The refusal of the broken pointer, with its place; the objects are then those before it.
    std::optional<Error> refused;
};

}  // namespace types

using types::Checked;
using types::Digest;
using types::Extent;
using types::Fault;
using types::kind_of;
using types::Object;
using types::parent_of;
using types::Path;
using types::Segments;
using types::Size;
using types::Walk;

// The size in bytes of the frame at the front. Its message isn't read.
inline Result<std::size_t> try_frame_size(Bytes stream, std::uint64_t words = CAPNP_CANONICAL_WORDS) {
    std::size_t size = 0;
    const std::uint32_t answer = capnp_canonical_frame_size(stream.data(), stream.size(), words, &size);
    if (answer == CAPNP_CANONICAL_DONE) return size;
    return Refusal(answer, stream.place(), 0, capnp_canonical_looks_like(stream.data(), stream.size()));
}
[[nodiscard]] inline std::size_t frame_size(Bytes stream, std::uint64_t words = CAPNP_CANONICAL_WORDS) {
    return try_frame_size(stream, words).value();
}

// How many bytes of a stream to have, from the start of a frame on, before frame_size finds the frame whole: the size of
// the frame if `prefix`, its first bytes, contains its segment table; otherwise the size of the table as far as they tell
// it, which is more than `prefix` has.
inline Result<std::size_t> try_frame_size_from_prefix(Bytes prefix, std::uint64_t words = CAPNP_CANONICAL_WORDS) {
    std::size_t size = 0;
    const std::uint32_t answer = capnp_canonical_frame_size_from_prefix(prefix.data(), prefix.size(), words, &size);
    if (answer == CAPNP_CANONICAL_DONE) return size;
    return Refusal(answer, prefix.place(), 0, capnp_canonical_looks_like(prefix.data(), prefix.size()));
}
[[nodiscard]] inline std::size_t frame_size_from_prefix(Bytes prefix, std::uint64_t words = CAPNP_CANONICAL_WORDS) {
    return try_frame_size_from_prefix(prefix, words).value();
}

namespace detail {

// Whether there is a byte in both of two ranges.
inline bool overlap(const void* one, std::size_t size, const void* other, std::size_t other_size) noexcept {
    auto first = reinterpret_cast<std::uintptr_t>(one), second = reinterpret_cast<std::uintptr_t>(other);
    return size && other_size && first < second + other_size && second < first + size;
}

[[noreturn]] inline void refuse_overlap() {
    raise(std::invalid_argument("capnp_canonical: what is read is inside what is written to"));
}

enum class Form { framed,
                  flat };

// The nesting limit that holds.
constexpr std::int32_t nesting_of(Limits limits) noexcept {
    return limits.nesting < CAPNP_CANONICAL_MAX_NESTING ? limits.nesting : CAPNP_CANONICAL_MAX_NESTING;
}

// Whether a message may be refused with this number because of a pointer.
inline bool is_of_pointer(std::uint32_t answer) noexcept {
    return answer != CAPNP_CANONICAL_NO_ROOM && answer != CAPNP_CANONICAL_ALLOCATION_FAILED &&
           answer != CAPNP_CANONICAL_MESSAGE_TOO_LARGE;
}

// What a call for the pointer of a refusal has found.
inline std::optional<Pointer> found(std::uint32_t answer, const capnp_canonical_pointer& pointer) noexcept {
    if (answer != CAPNP_CANONICAL_DONE || pointer.refusal == CAPNP_CANONICAL_DONE) return std::nullopt;
    return Pointer{pointer.segment, pointer.word};
}

// A frame and no bytes after it, in the form that the C calls take.
class FrameSource {
public:
    FrameSource(Bytes frame, Limits limits) noexcept : frame_(frame), limits_(limits) {}

    [[nodiscard]] std::size_t bytes() const noexcept { return frame_.size(); }
    [[nodiscard]] Place place() const noexcept { return frame_.place(); }
    bool overlaps(const void* to, std::size_t room) const noexcept {
        return overlap(frame_.data(), frame_.size(), to, room);
    }

    std::uint32_t copy(Form form, std::uint8_t* to, std::size_t room, std::size_t* written) const noexcept {
        auto call = form == Form::flat ? capnp_canonical_copy_flat : capnp_canonical_copy;
        return call(frame_.data(), frame_.size(), nesting_of(limits_), limits_.words, to, room, written);
    }
    std::uint32_t digest(std::uint8_t* to) const noexcept {
        return capnp_canonical_digest(frame_.data(), frame_.size(), nesting_of(limits_), limits_.words, to);
    }
    std::uint32_t digest_with(Bytes prefix, std::uint8_t* to) const noexcept {
        return capnp_canonical_digest_with(prefix.data(), prefix.size(), frame_.data(), frame_.size(), nesting_of(limits_),
                                           limits_.words, to);
    }
    std::uint32_t equals(const FrameSource& other, bool* same) const noexcept {
        return capnp_canonical_equal(frame_.data(), frame_.size(), other.frame_.data(), other.frame_.size(),
                                     nesting_of(limits_), limits_.words, same);
    }
    std::uint32_t check(bool* is_canonical, capnp_canonical_fault* fault) const noexcept {
        return capnp_canonical_check(frame_.data(), frame_.size(), nesting_of(limits_), limits_.words, is_canonical, fault);
    }
    std::uint32_t size(std::uint64_t* words, std::uint32_t* capabilities) const noexcept {
        return capnp_canonical_size(frame_.data(), frame_.size(), nesting_of(limits_), limits_.words, words, capabilities);
    }
    std::uint32_t validate(capnp_canonical_extent* extent) const noexcept {
        return capnp_canonical_validate(frame_.data(), frame_.size(), nesting_of(limits_), limits_.words, extent);
    }
    std::uint32_t walk(Object* objects, std::size_t room, std::size_t* count) const noexcept {
        return capnp_canonical_walk(frame_.data(), frame_.size(), nesting_of(limits_), limits_.words, objects, room, count);
    }
    [[nodiscard]] std::optional<Pointer> refused(std::uint32_t reading) const noexcept {
        capnp_canonical_pointer it = {};
        return found(
            capnp_canonical_locate(frame_.data(), frame_.size(), nesting_of(limits_), limits_.words, reading, &it), it);
    }

private:
    Bytes frame_;
    Limits limits_;
};

// A part of the message of a frame. Its copies are raw words.
class FramePart {
public:
    FramePart(Bytes frame, Path path, Limits limits) noexcept : frame_(frame), path_(path), limits_(limits) {}

    [[nodiscard]] std::size_t bytes() const noexcept { return frame_.size(); }
    [[nodiscard]] Place place() const noexcept { return frame_.place(); }

    std::uint32_t copy(Form, std::uint8_t* to, std::size_t room, std::size_t* written) const noexcept {
        return capnp_canonical_copy_flat_at(frame_.data(), frame_.size(), path_.data(), path_.size(), nesting_of(limits_),
                                            limits_.words, to, room, written);
    }
    std::uint32_t digest(std::uint8_t* to) const noexcept {
        return capnp_canonical_digest_at(frame_.data(), frame_.size(), path_.data(), path_.size(), nesting_of(limits_),
                                         limits_.words, to);
    }
    std::uint32_t digest_with(Bytes prefix, std::uint8_t* to) const noexcept {
        return capnp_canonical_digest_with_at(prefix.data(), prefix.size(), frame_.data(), frame_.size(), path_.data(),
                                              path_.size(), nesting_of(limits_), limits_.words, to);
    }
    std::uint32_t size(std::uint64_t* words, std::uint32_t* capabilities) const noexcept {
        return capnp_canonical_size_at(frame_.data(), frame_.size(), path_.data(), path_.size(), nesting_of(limits_),
                                       limits_.words, words, capabilities);
    }
    // Not known: a refusal may be of the path.
    [[nodiscard]] std::optional<Pointer> refused(std::uint32_t) const noexcept { return std::nullopt; }

private:
    Bytes frame_;
    Path path_;
    Limits limits_;
};

// Segments, in the form that the C calls take.
class SegmentSource {
public:
    SegmentSource(const Segments& segments, Limits limits) noexcept
        : segments_(segments.data()), count_(segments.size()), bytes_(segments.bytes()), limits_(limits) {}
    SegmentSource(const capnp_canonical_segment& segment, Limits limits) noexcept
        : segments_(&segment), count_(1), bytes_(segment.size), limits_(limits) {}

    [[nodiscard]] std::size_t bytes() const noexcept { return bytes_; }
    [[nodiscard]] Place place() const noexcept { return {}; }
    bool overlaps(const void* to, std::size_t room) const noexcept {
        return std::any_of(segments_, segments_ + count_,
                           [&](const capnp_canonical_segment& it) { return overlap(it.bytes, it.size, to, room); });
    }

    std::uint32_t copy(Form form, std::uint8_t* to, std::size_t room, std::size_t* written) const noexcept {
        auto call = form == Form::flat ? capnp_canonical_segments_copy_flat : capnp_canonical_segments_copy;
        return call(segments_, count_, nesting_of(limits_), limits_.words, to, room, written);
    }
    std::uint32_t digest(std::uint8_t* to) const noexcept {
        return capnp_canonical_segments_digest(segments_, count_, nesting_of(limits_), limits_.words, to);
    }
    std::uint32_t digest_with(Bytes prefix, std::uint8_t* to) const noexcept {
        return capnp_canonical_segments_digest_with(prefix.data(), prefix.size(), segments_, count_, nesting_of(limits_),
                                                    limits_.words, to);
    }
    std::uint32_t equals(const SegmentSource& other, bool* same) const noexcept {
        return capnp_canonical_segments_equal(segments_, count_, other.segments_, other.count_, nesting_of(limits_),
                                              limits_.words, same);
    }
    std::uint32_t check(bool* is_canonical, capnp_canonical_fault* fault) const noexcept {
        return capnp_canonical_segments_check(segments_, count_, nesting_of(limits_), limits_.words, is_canonical, fault);
    }
    std::uint32_t size(std::uint64_t* words, std::uint32_t* capabilities) const noexcept {
        return capnp_canonical_segments_size(segments_, count_, nesting_of(limits_), limits_.words, words, capabilities);
    }
    std::uint32_t validate(capnp_canonical_extent* extent) const noexcept {
        return capnp_canonical_segments_validate(segments_, count_, nesting_of(limits_), limits_.words, extent);
    }
    std::uint32_t walk(Object* objects, std::size_t room, std::size_t* count) const noexcept {
        return capnp_canonical_segments_walk(segments_, count_, nesting_of(limits_), limits_.words, objects, room, count);
    }
    [[nodiscard]] std::optional<Pointer> refused(std::uint32_t reading) const noexcept {
        capnp_canonical_pointer it = {};
        return found(capnp_canonical_segments_locate(segments_, count_, nesting_of(limits_), limits_.words, reading, &it), it);
    }

private:
    const capnp_canonical_segment* segments_;
    std::size_t count_;
    std::size_t bytes_;
    Limits limits_;
};

// A part of a message of these segments.
class SegmentPart {
public:
    SegmentPart(const Segments& segments, Path path, Limits limits) noexcept
        : segments_(segments.data()), count_(segments.size()), bytes_(segments.bytes()), path_(path), limits_(limits) {}
    SegmentPart(const capnp_canonical_segment& segment, Path path, Limits limits) noexcept
        : segments_(&segment), count_(1), bytes_(segment.size), path_(path), limits_(limits) {}

    [[nodiscard]] std::size_t bytes() const noexcept { return bytes_; }
    [[nodiscard]] Place place() const noexcept { return {}; }

    std::uint32_t copy(Form, std::uint8_t* to, std::size_t room, std::size_t* written) const noexcept {
        return capnp_canonical_segments_copy_flat_at(segments_, count_, path_.data(), path_.size(),
                                                     nesting_of(limits_), limits_.words, to, room, written);
    }
    std::uint32_t digest(std::uint8_t* to) const noexcept {
        return capnp_canonical_segments_digest_at(segments_, count_, path_.data(), path_.size(),
                                                  nesting_of(limits_), limits_.words, to);
    }
    std::uint32_t digest_with(Bytes prefix, std::uint8_t* to) const noexcept {
        return capnp_canonical_segments_digest_with_at(prefix.data(), prefix.size(), segments_, count_, path_.data(),
                                                       path_.size(), nesting_of(limits_), limits_.words, to);
    }
    std::uint32_t size(std::uint64_t* words, std::uint32_t* capabilities) const noexcept {
        return capnp_canonical_segments_size_at(segments_, count_, path_.data(), path_.size(),
                                                nesting_of(limits_), limits_.words, words, capabilities);
    }
    // Not known: a refusal may be of the path.
    [[nodiscard]] std::optional<Pointer> refused(std::uint32_t) const noexcept { return std::nullopt; }

private:
    const capnp_canonical_segment* segments_;
    std::size_t count_;
    std::size_t bytes_;
    Path path_;
    Limits limits_;
};

// Why a message that was read in this way is refused, with the pointer that is.
template <typename Source>
Refusal refusal_of(const Source& source, std::uint32_t answer, std::uint32_t reading) noexcept {
    std::optional<Pointer> pointer;
    if (is_of_pointer(answer)) pointer = source.refused(reading);
    return Refusal(answer, source.place(), 0, nullptr, pointer);
}

// Uses the frame at the front of some bytes.
template <typename Use>
std::invoke_result_t<Use, const FrameSource&> on_frame(Bytes stream, Limits limits, Use use) {
    const Result<std::size_t> size = try_frame_size(stream, limits.words);
    if (!size) return size.error();
    return use(FrameSource({stream.data(), *size, stream.place()}, limits));
}
template <typename Use>
std::invoke_result_t<Use, const FramePart&> on_frame(Bytes stream, Path path, Limits limits, Use use) {
    const Result<std::size_t> size = try_frame_size(stream, limits.words);
    if (!size) return size.error();
    return use(FramePart({stream.data(), *size, stream.place()}, path, limits));
}

// Uses raw words as the one segment of a message.
template <typename Use>
std::invoke_result_t<Use, const SegmentSource&> on_words(WordsView words, Limits limits, Use use) {
    const capnp_canonical_segment segment = {words.data(), words.size()};
    return use(SegmentSource(segment, limits));
}
template <typename Use>
std::invoke_result_t<Use, const SegmentPart&> on_words(WordsView words, Path path, Limits limits, Use use) {
    const capnp_canonical_segment segment = {words.data(), words.size()};
    return use(SegmentPart(segment, path, limits));
}

// Copies into room that is first as large as the message, and then as large as the copy needs if that is too small;
// `grow` makes it at least that large. Returns the number of bytes written.
template <typename Source, typename Grow>
Result<std::size_t> copied(const Source& source, Form form, std::size_t room, Grow grow) {
    std::size_t written = 0;
    std::uint8_t* to = grow(room);
    std::uint32_t answer = source.copy(form, to, room, &written);
    if (answer == CAPNP_CANONICAL_NO_ROOM) {
        room = written;
        to = grow(room);
        answer = source.copy(form, to, room, &written);
    }
    if (answer != CAPNP_CANONICAL_DONE) return refusal_of(source, answer, CAPNP_CANONICAL_READING_CANONICAL);
    return written;
}

template <typename Source>
Result<std::vector<std::uint8_t>> copy_of(const Source& source, Form form) {
    std::vector<std::uint8_t> to;
    const Result<std::size_t> written = copied(source, form, source.bytes() + 8, [&](std::size_t room) {
        to.resize(room);
        return to.data();
    });
    if (!written) return written.error();
    to.resize(*written);
    return to;
}

template <typename Source>
Result<Words> words_of(const Source& source) {
    Result<std::vector<std::uint8_t>> copy = copy_of(source, Form::flat);
    if (!copy) return copy.error();
    return Words(*std::move(copy));
}

// A buffer that is cut to what is written to it, so that nothing of an earlier message is after that; to nothing if the
// call throws.
class Written {
public:
    explicit Written(std::vector<std::uint8_t>& buffer) noexcept : buffer_(buffer) {}
    Written(const Written&) = delete;
    Written& operator=(const Written&) = delete;
    ~Written() { buffer_.resize(size_); }

    // At least `room` bytes.
    std::uint8_t* grow(std::size_t room) {
        if (buffer_.size() < room) buffer_.resize(room);
        return buffer_.data();
    }
    Bytes cut(std::size_t size) noexcept {
        size_ = size;
        return {buffer_.data(), size};
    }
    // Throws if what is read is inside the buffer, which then stays as it is.
    template <typename Source>
    void require_apart(const Source& source) {
        if (!source.overlaps(buffer_.data(), buffer_.capacity())) return;
        size_ = buffer_.size();
        refuse_overlap();
    }

private:
    std::vector<std::uint8_t>& buffer_;
    std::size_t size_ = 0;
};

template <typename Source>
Result<Bytes> copy_to(Written& to, std::size_t size, Form form, const Source& source) {
    to.require_apart(source);
    const std::size_t room = std::max(size, source.bytes() + 8);
    const Result<std::size_t> written = copied(source, form, room, [&](std::size_t more) { return to.grow(more); });
    if (!written) return written.error();
    return to.cut(*written);
}

// Into a buffer, which is left empty if the frame or its message is refused.
inline Result<Bytes> copy_into(std::vector<std::uint8_t>& buffer, Form form, Bytes frame, Limits limits) {
    Written to(buffer);
    return on_frame(frame, limits, [&](const FrameSource& it) { return copy_to(to, buffer.size(), form, it); });
}
inline Result<Bytes> copy_into(std::vector<std::uint8_t>& buffer, Form form, const Segments& segments, Limits limits) {
    Written to(buffer);
    return copy_to(to, buffer.size(), form, SegmentSource(segments, limits));
}

// The unpacked size of packed bytes, which may be at most `words` words.
inline Result<std::size_t> unpacked_size(Bytes packed, std::uint64_t words) noexcept {
    std::size_t size = 0;
    const std::uint32_t answer = capnp_canonical_unpack(packed.data(), packed.size(), nullptr, 0, &size);
    if (answer != CAPNP_CANONICAL_DONE && answer != CAPNP_CANONICAL_NO_ROOM) return Refusal(answer, packed.place());
    if (size / 8 > words) return Refusal(CAPNP_CANONICAL_MESSAGE_TOO_LONG, packed.place());
    return size;
}

// Unpacks to room for so many bytes.
inline Result<std::size_t> unpack_to(std::uint8_t* to, std::size_t room, Bytes packed) noexcept {
    std::size_t size = 0;
    const std::uint32_t answer = capnp_canonical_unpack(packed.data(), packed.size(), to, room, &size);
    if (answer != CAPNP_CANONICAL_DONE) return Refusal(answer, packed.place());
    return size;
}

template <typename Source>
Result<Digest> digest_of(const Source& source) {
    Digest to;
    const std::uint32_t answer = source.digest(to.data());
    if (answer != CAPNP_CANONICAL_DONE) return refusal_of(source, answer, CAPNP_CANONICAL_READING_CANONICAL);
    return to;
}

template <typename Source>
Result<Digest> digest_of(Bytes prefix, const Source& source) {
    Digest to;
    const std::uint32_t answer = source.digest_with(prefix, to.data());
    if (answer != CAPNP_CANONICAL_DONE) return refusal_of(source, answer, CAPNP_CANONICAL_READING_CANONICAL);
    return to;
}

// Whether two messages have the same canonical words. A refusal is that of the first one that is refused.
template <typename Source>
Result<bool> compared(const Source& one, const Source& other) {
    bool same = false;
    const std::uint32_t answer = one.equals(other, &same);
    if (answer == CAPNP_CANONICAL_DONE) return same;
    const Result<Digest> first = digest_of(one), second = digest_of(other);
    if (!first) return first.error();
    if (!second) return second.error();
    return Refusal(answer);
}

template <typename Source>
Result<Checked> checked(const Source& source) {
    bool is_canonical = false;
    capnp_canonical_fault fault = {};
    const std::uint32_t answer = source.check(&is_canonical, &fault);
    if (answer != CAPNP_CANONICAL_DONE) return refusal_of(source, answer, CAPNP_CANONICAL_READING_VALUE);
    if (is_canonical) return Checked(std::nullopt);
    return Checked(Fault{fault.reason, fault.segment, fault.word});
}

template <typename Source>
Result<Extent> extent_of(const Source& source) {
    capnp_canonical_extent extent = {};
    const std::uint32_t answer = source.validate(&extent);
    if (answer != CAPNP_CANONICAL_DONE) return refusal_of(source, answer, CAPNP_CANONICAL_READING_VALUE);
    return Extent{extent.words, extent.capabilities, extent.cost, extent.depth};
}

// Lists the first few objects in room of its own, and then all, if there are more, in room for those that there are.
template <typename Source>
Result<Walk> walk_of(const Source& source, std::size_t most) {
    Walk found;
    std::array<Object, 32> first;
    const std::size_t few = std::min(most, first.size());
    std::uint32_t answer = source.walk(first.data(), few, &found.count);
    if (found.count > few && most > few) {
        found.objects.resize(std::min(most, found.count));
        answer = source.walk(found.objects.data(), found.objects.size(), &found.count);
    } else {
        found.objects.assign(first.data(), first.data() + std::min(few, found.count));
    }
    if (answer == CAPNP_CANONICAL_DONE || answer == CAPNP_CANONICAL_NO_ROOM) return found;
    const Refusal refusal = refusal_of(source, answer, CAPNP_CANONICAL_READING_VALUE);
    if (!refusal.pointer()) return refusal;
    found.refused = Error(refusal);
    return found;
}

template <typename Source>
Result<Size> size_of(const Source& source) {
    Size size = {};
    const std::uint32_t answer = source.size(&size.words, &size.capabilities);
    if (answer != CAPNP_CANONICAL_DONE) return refusal_of(source, answer, CAPNP_CANONICAL_READING_SIZE);
    return size;
}

}  // namespace detail

// Makes the message canonical, as a frame of one segment. Bytes after the frame at the front are ignored.
inline Result<std::vector<std::uint8_t>> try_copy(Bytes frame, Limits limits = {}) {
    return detail::on_frame(frame, limits, [&](const auto& it) { return detail::copy_of(it, detail::Form::framed); });
}
[[nodiscard]] inline std::vector<std::uint8_t> copy(Bytes frame, Limits limits = {}) {
    return try_copy(frame, limits).value();
}
inline Result<std::vector<std::uint8_t>> try_copy(const Segments& segments, Limits limits = {}) {
    return detail::copy_of(detail::SegmentSource(segments, limits), detail::Form::framed);
}
[[nodiscard]] inline std::vector<std::uint8_t> copy(const Segments& segments, Limits limits = {}) {
    return try_copy(segments, limits).value();
}

// Makes the message canonical and returns its raw words, which are the bytes to hash or sign. Read stored words back
// with words_check and words_copy. The first of these has a type that the calls for frames don't take.
inline Result<Words> try_canonical_words(Bytes frame, Limits limits = {}) {
    return detail::on_frame(frame, limits, [&](const auto& it) { return detail::words_of(it); });
}
[[nodiscard]] inline Words canonical_words(Bytes frame, Limits limits = {}) {
    return try_canonical_words(frame, limits).value();
}
inline Result<Words> try_canonical_words(const Segments& segments, Limits limits = {}) {
    return detail::words_of(detail::SegmentSource(segments, limits));
}
[[nodiscard]] inline Words canonical_words(const Segments& segments, Limits limits = {}) {
    return try_canonical_words(segments, limits).value();
}
inline Result<std::vector<std::uint8_t>> try_copy_flat(Bytes frame, Limits limits = {}) {
    return detail::on_frame(frame, limits, [&](const auto& it) { return detail::copy_of(it, detail::Form::flat); });
}
[[nodiscard]] inline std::vector<std::uint8_t> copy_flat(Bytes frame, Limits limits = {}) {
    return try_copy_flat(frame, limits).value();
}
inline Result<std::vector<std::uint8_t>> try_copy_flat(const Segments& segments, Limits limits = {}) {
    return detail::copy_of(detail::SegmentSource(segments, limits), detail::Form::flat);
}
[[nodiscard]] inline std::vector<std::uint8_t> copy_flat(const Segments& segments, Limits limits = {}) {
    return try_copy_flat(segments, limits).value();
}

// The same two into a buffer that you keep from one message to the next, so that its memory is reused. The buffer then
// holds the copy and nothing else, and the returned bytes are a view of it. If the call is refused the buffer is empty.
// Throws std::invalid_argument if the message is inside the buffer, which then stays as it is.
inline Result<Bytes> try_copy_into(std::vector<std::uint8_t>& buffer CAPNP_CANONICAL_LIFETIMEBOUND, Bytes frame,
                                   Limits limits = {}) {
    return detail::copy_into(buffer, detail::Form::framed, frame, limits);
}
inline Bytes copy_into(std::vector<std::uint8_t>& buffer CAPNP_CANONICAL_LIFETIMEBOUND, Bytes frame, Limits limits = {}) {
    return try_copy_into(buffer, frame, limits).value();
}
inline Result<Bytes> try_copy_into(std::vector<std::uint8_t>& buffer CAPNP_CANONICAL_LIFETIMEBOUND, const Segments& segments,
                                   Limits limits = {}) {
    return detail::copy_into(buffer, detail::Form::framed, segments, limits);
}
inline Bytes copy_into(std::vector<std::uint8_t>& buffer CAPNP_CANONICAL_LIFETIMEBOUND, const Segments& segments, Limits limits = {}) {
    return try_copy_into(buffer, segments, limits).value();
}
inline Result<Bytes> try_copy_flat_into(std::vector<std::uint8_t>& buffer CAPNP_CANONICAL_LIFETIMEBOUND, Bytes frame,
                                        Limits limits = {}) {
    return detail::copy_into(buffer, detail::Form::flat, frame, limits);
}
inline Bytes copy_flat_into(std::vector<std::uint8_t>& buffer CAPNP_CANONICAL_LIFETIMEBOUND, Bytes frame, Limits limits = {}) {
    return try_copy_flat_into(buffer, frame, limits).value();
}
inline Result<Bytes> try_copy_flat_into(std::vector<std::uint8_t>& buffer CAPNP_CANONICAL_LIFETIMEBOUND, const Segments& segments,
                                        Limits limits = {}) {
    return detail::copy_into(buffer, detail::Form::flat, segments, limits);
}
inline Bytes copy_flat_into(std::vector<std::uint8_t>& buffer CAPNP_CANONICAL_LIFETIMEBOUND, const Segments& segments, Limits limits = {}) {
    return try_copy_flat_into(buffer, segments, limits).value();
}

// The SHA-256 of the canonical words of the message, which are the bytes that copy_flat returns. It names the value:
// messages with equal values have the same. It needs no room for the copy.
inline Result<Digest> try_digest(Bytes frame, Limits limits = {}) {
    return detail::on_frame(frame, limits, [&](const auto& it) { return detail::digest_of(it); });
}
[[nodiscard]] inline Digest digest(Bytes frame, Limits limits = {}) { return try_digest(frame, limits).value(); }
inline Result<Digest> try_digest(const Segments& segments, Limits limits = {}) {
    return detail::digest_of(detail::SegmentSource(segments, limits));
}
[[nodiscard]] inline Digest digest(const Segments& segments, Limits limits = {}) {
    return try_digest(segments, limits).value();
}

// The SHA-256 of `prefix` and then the canonical words. Canonical words don't tell their type: with the 8 bytes of
// a type id as the prefix, the digest and a signature of it cover the type.
inline Result<Digest> try_digest_with(Bytes prefix, Bytes frame, Limits limits = {}) {
    return detail::on_frame(frame, limits, [&](const auto& it) { return detail::digest_of(prefix, it); });
}
[[nodiscard]] inline Digest digest_with(Bytes prefix, Bytes frame, Limits limits = {}) {
    return try_digest_with(prefix, frame, limits).value();
}
inline Result<Digest> try_digest_with(Bytes prefix, const Segments& segments, Limits limits = {}) {
    return detail::digest_of(prefix, detail::SegmentSource(segments, limits));
}
[[nodiscard]] inline Digest digest_with(Bytes prefix, const Segments& segments, Limits limits = {}) {
    return try_digest_with(prefix, segments, limits).value();
}

// Whether two messages have the same value: whether copy_flat returns the same for both. Each is read within the limits. To
// compare one message with many, compare digests.
inline Result<bool> try_equal(Bytes frame, Bytes other, Limits limits = {}) {
    return detail::on_frame(frame, limits, [&](const detail::FrameSource& one) {
        return detail::on_frame(other, limits, [&](const detail::FrameSource& two) { return detail::compared(one, two); });
    });
}
[[nodiscard]] inline bool equal(Bytes frame, Bytes other, Limits limits = {}) {
    return try_equal(frame, other, limits).value();
}
inline Result<bool> try_equal(const Segments& segments, const Segments& other, Limits limits = {}) {
    return detail::compared(detail::SegmentSource(segments, limits), detail::SegmentSource(other, limits));
}
[[nodiscard]] inline bool equal(const Segments& segments, const Segments& other, Limits limits = {}) {
    return try_equal(segments, other, limits).value();
}

// Tests whether the message is canonical, and if not, says why and where. Canonical means one segment, which holds the
// canonical words of a value and nothing else.
inline Result<Checked> try_check(Bytes frame, Limits limits = {}) {
    return detail::on_frame(frame, limits, [&](const auto& it) { return detail::checked(it); });
}
[[nodiscard]] inline Checked check(Bytes frame, Limits limits = {}) { return try_check(frame, limits).value(); }
inline Result<Checked> try_check(const Segments& segments, Limits limits = {}) {
    return detail::checked(detail::SegmentSource(segments, limits));
}
[[nodiscard]] inline Checked check(const Segments& segments, Limits limits = {}) {
    return try_check(segments, limits).value();
}

// Whether the message is canonical. Also false if it can't be read, because a limit is exceeded or the bytes are no
// frame.
[[nodiscard]] inline bool is_canonical(Bytes frame, Limits limits = {}) noexcept {
    return capnp_canonical_is_canonical(frame.data(), frame.size(), detail::nesting_of(limits), limits.words);
}
[[nodiscard]] inline bool is_canonical(const Segments& segments, Limits limits = {}) noexcept {
    return capnp_canonical_segments_is_canonical(segments.data(), segments.size(), detail::nesting_of(limits), limits.words);
}

// The size of the message. Its canonical words take at most 8 bytes more than these words.
inline Result<Size> try_size(Bytes frame, Limits limits = {}) {
    return detail::on_frame(frame, limits, [&](const auto& it) { return detail::size_of(it); });
}
[[nodiscard]] inline Size size(Bytes frame, Limits limits = {}) { return try_size(frame, limits).value(); }
inline Result<Size> try_size(const Segments& segments, Limits limits = {}) {
    return detail::size_of(detail::SegmentSource(segments, limits));
}
[[nodiscard]] inline Size size(const Segments& segments, Limits limits = {}) {
    return try_size(segments, limits).value();
}

// Throws Error unless the message is sound: unless its root means a value within both limits, which may have
// capabilities.
inline Result<Extent> try_validate(Bytes frame, Limits limits = {}) {
    return detail::on_frame(frame, limits, [&](const auto& it) { return detail::extent_of(it); });
}
inline Extent validate(Bytes frame, Limits limits = {}) { return try_validate(frame, limits).value(); }
inline Result<Extent> try_validate(const Segments& segments, Limits limits = {}) {
    return detail::extent_of(detail::SegmentSource(segments, limits));
}
inline Extent validate(const Segments& segments, Limits limits = {}) { return try_validate(segments, limits).value(); }

// The structs, lists and capabilities of the message, at most `most` of them. A broken message is listed up to its first
// broken pointer. Throws Error only if the bytes aren't a message. Takes memory for the objects that there are, also if
// `most` is larger. Reads the message twice if there are more than 32.
inline Result<Walk> try_walk(Bytes frame, std::size_t most, Limits limits = {}) {
    return detail::on_frame(frame, limits, [&](const auto& it) { return detail::walk_of(it, most); });
}
[[nodiscard]] inline Walk walk(Bytes frame, std::size_t most, Limits limits = {}) {
    return try_walk(frame, most, limits).value();
}
inline Result<Walk> try_walk(const Segments& segments, std::size_t most, Limits limits = {}) {
    return detail::walk_of(detail::SegmentSource(segments, limits), most);
}
[[nodiscard]] inline Walk walk(const Segments& segments, std::size_t most, Limits limits = {}) {
    return try_walk(segments, most, limits).value();
}

// copy_flat, digest and size for a part of a message: the value at the end of a path. If
// the path leads nowhere, throws Error with CAPNP_CANONICAL_NO_SUCH_PLACE.
inline Result<Words> try_canonical_words_at(Bytes frame, Path path, Limits limits = {}) {
    return detail::on_frame(frame, path, limits, [](const auto& it) { return detail::words_of(it); });
}
[[nodiscard]] inline Words canonical_words_at(Bytes frame, Path path, Limits limits = {}) {
    return try_canonical_words_at(frame, path, limits).value();
}
inline Result<Words> try_canonical_words_at(const Segments& segments, Path path, Limits limits = {}) {
    return detail::words_of(detail::SegmentPart(segments, path, limits));
}
[[nodiscard]] inline Words canonical_words_at(const Segments& segments, Path path, Limits limits = {}) {
    return try_canonical_words_at(segments, path, limits).value();
}
inline Result<std::vector<std::uint8_t>> try_copy_flat_at(Bytes frame, Path path, Limits limits = {}) {
    return detail::on_frame(frame, path, limits, [](const auto& it) { return detail::copy_of(it, detail::Form::flat); });
}
[[nodiscard]] inline std::vector<std::uint8_t> copy_flat_at(Bytes frame, Path path, Limits limits = {}) {
    return try_copy_flat_at(frame, path, limits).value();
}
inline Result<std::vector<std::uint8_t>> try_copy_flat_at(const Segments& segments, Path path, Limits limits = {}) {
    return detail::copy_of(detail::SegmentPart(segments, path, limits), detail::Form::flat);
}
[[nodiscard]] inline std::vector<std::uint8_t> copy_flat_at(const Segments& segments, Path path, Limits limits = {}) {
    return try_copy_flat_at(segments, path, limits).value();
}
inline Result<Digest> try_digest_at(Bytes frame, Path path, Limits limits = {}) {
    return detail::on_frame(frame, path, limits, [](const auto& it) { return detail::digest_of(it); });
}
[[nodiscard]] inline Digest digest_at(Bytes frame, Path path, Limits limits = {}) {
    return try_digest_at(frame, path, limits).value();
}
inline Result<Digest> try_digest_at(const Segments& segments, Path path, Limits limits = {}) {
    return detail::digest_of(detail::SegmentPart(segments, path, limits));
}
[[nodiscard]] inline Digest digest_at(const Segments& segments, Path path, Limits limits = {}) {
    return try_digest_at(segments, path, limits).value();
}
inline Result<Digest> try_digest_with_at(Bytes prefix, Bytes frame, Path path, Limits limits = {}) {
    return detail::on_frame(frame, path, limits, [&](const auto& it) { return detail::digest_of(prefix, it); });
}
[[nodiscard]] inline Digest digest_with_at(Bytes prefix, Bytes frame, Path path, Limits limits = {}) {
    return try_digest_with_at(prefix, frame, path, limits).value();
}
inline Result<Digest> try_digest_with_at(Bytes prefix, const Segments& segments, Path path, Limits limits = {}) {
    return detail::digest_of(prefix, detail::SegmentPart(segments, path, limits));
}
[[nodiscard]] inline Digest digest_with_at(Bytes prefix, const Segments& segments, Path path, Limits limits = {}) {
    return try_digest_with_at(prefix, segments, path, limits).value();
}
inline Result<Size> try_size_at(Bytes frame, Path path, Limits limits = {}) {
    return detail::on_frame(frame, path, limits, [](const auto& it) { return detail::size_of(it); });
}
[[nodiscard]] inline Size size_at(Bytes frame, Path path, Limits limits = {}) {
    return try_size_at(frame, path, limits).value();
}
inline Result<Size> try_size_at(const Segments& segments, Path path, Limits limits = {}) {
    return detail::size_of(detail::SegmentPart(segments, path, limits));
}
[[nodiscard]] inline Size size_at(const Segments& segments, Path path, Limits limits = {}) {
    return try_size_at(segments, path, limits).value();
}

// The same, for a message passed as raw words: all of the bytes are its one segment, and its copy is raw words too.
inline Result<std::vector<std::uint8_t>> try_words_copy(WordsView words, Limits limits = {}) {
    return detail::on_words(words, limits, [&](const auto& it) { return detail::copy_of(it, detail::Form::flat); });
}
[[nodiscard]] inline std::vector<std::uint8_t> words_copy(WordsView words, Limits limits = {}) {
    return try_words_copy(words, limits).value();
}
inline Result<Digest> try_words_digest(WordsView words, Limits limits = {}) {
    return detail::on_words(words, limits, [&](const auto& it) { return detail::digest_of(it); });
}
[[nodiscard]] inline Digest words_digest(WordsView words, Limits limits = {}) {
    return try_words_digest(words, limits).value();
}
inline Result<Digest> try_words_digest_with(Bytes prefix, WordsView words, Limits limits = {}) {
    return detail::on_words(words, limits, [&](const auto& it) { return detail::digest_of(prefix, it); });
}
[[nodiscard]] inline Digest words_digest_with(Bytes prefix, WordsView words, Limits limits = {}) {
    return try_words_digest_with(prefix, words, limits).value();
}
inline Result<bool> try_words_equal(WordsView words, WordsView other, Limits limits = {}) {
    return detail::on_words(words, limits, [&](const detail::SegmentSource& one) {
        return detail::on_words(other, limits, [&](const detail::SegmentSource& two) { return detail::compared(one, two); });
    });
}
[[nodiscard]] inline bool words_equal(WordsView words, WordsView other, Limits limits = {}) {
    return try_words_equal(words, other, limits).value();
}
inline Result<Checked> try_words_check(WordsView words, Limits limits = {}) {
    return detail::on_words(words, limits, [&](const auto& it) { return detail::checked(it); });
}
[[nodiscard]] inline Checked words_check(WordsView words, Limits limits = {}) {
    return try_words_check(words, limits).value();
}
[[nodiscard]] inline bool words_is_canonical(WordsView words, Limits limits = {}) noexcept {
    return capnp_canonical_words_is_canonical(words.data(), words.size(), detail::nesting_of(limits), limits.words);
}
inline Result<Size> try_words_size(WordsView words, Limits limits = {}) {
    return detail::on_words(words, limits, [&](const auto& it) { return detail::size_of(it); });
}
[[nodiscard]] inline Size words_size(WordsView words, Limits limits = {}) {
    return try_words_size(words, limits).value();
}
inline Result<Extent> try_words_validate(WordsView words, Limits limits = {}) {
    return detail::on_words(words, limits, [&](const auto& it) { return detail::extent_of(it); });
}
inline Extent words_validate(WordsView words, Limits limits = {}) { return try_words_validate(words, limits).value(); }
inline Result<Walk> try_words_walk(WordsView words, std::size_t most, Limits limits = {}) {
    return detail::on_words(words, limits, [&](const auto& it) { return detail::walk_of(it, most); });
}
[[nodiscard]] inline Walk words_walk(WordsView words, std::size_t most, Limits limits = {}) {
    return try_words_walk(words, most, limits).value();
}
inline Result<std::vector<std::uint8_t>> try_words_copy_at(WordsView words, Path path, Limits limits = {}) {
    return detail::on_words(words, path, limits, [&](const auto& it) { return detail::copy_of(it, detail::Form::flat); });
}
[[nodiscard]] inline std::vector<std::uint8_t> words_copy_at(WordsView words, Path path, Limits limits = {}) {
    return try_words_copy_at(words, path, limits).value();
}
inline Result<Digest> try_words_digest_at(WordsView words, Path path, Limits limits = {}) {
    return detail::on_words(words, path, limits, [&](const auto& it) { return detail::digest_of(it); });
}
[[nodiscard]] inline Digest words_digest_at(WordsView words, Path path, Limits limits = {}) {
    return try_words_digest_at(words, path, limits).value();
}
inline Result<Digest> try_words_digest_with_at(Bytes prefix, WordsView words, Path path, Limits limits = {}) {
    return detail::on_words(words, path, limits, [&](const auto& it) { return detail::digest_of(prefix, it); });
}
[[nodiscard]] inline Digest words_digest_with_at(Bytes prefix, WordsView words, Path path, Limits limits = {}) {
    return try_words_digest_with_at(prefix, words, path, limits).value();
}
inline Result<Size> try_words_size_at(WordsView words, Path path, Limits limits = {}) {
    return detail::on_words(words, path, limits, [&](const auto& it) { return detail::size_of(it); });
}
[[nodiscard]] inline Size words_size_at(WordsView words, Path path, Limits limits = {}) {
    return try_words_size_at(words, path, limits).value();
}

// For std::unordered_map and std::unordered_set whose keys are digests, which is the best form if a value is looked up more
// than once.
struct DigestHash {
    [[nodiscard]] std::size_t operator()(const Digest& digest) const noexcept {
        std::size_t hash = 0;
        std::memcpy(&hash, digest.data(), sizeof hash);
        return hash;
    }
};

// For those whose keys are frames, in any type that converts to Bytes: a hash of the value, and whether two values are
// equal, by their digests. A message that is refused is equal only to the same bytes.
struct ValueHash {
    Limits limits = {};
    [[nodiscard]] std::size_t operator()(Bytes frame) const {
        const Result<Digest> digest = try_digest(frame, limits);
        if (digest) return DigestHash()(*digest);
        return std::hash<std::string_view>()({reinterpret_cast<const char*>(frame.data()), frame.size()});
    }
};
struct ValueEqual {
    Limits limits = {};
    [[nodiscard]] bool operator()(Bytes one, Bytes other) const {
        const Result<Digest> first = try_digest(one, limits), second = try_digest(other, limits);
        if (first && second) return *first == *second;
        return !first && !second && std::equal(one.begin(), one.end(), other.begin(), other.end());
    }
};

// Unpacks what capnp::writePackedMessage writes: the frames of one or more messages, which the calls above take, and
// Frames one by one. Two packed bytes stand for up to 2,048. If there are more words than the limit, this throws Error
// with the number CAPNP_CANONICAL_MESSAGE_TOO_LONG, before it makes room for them. It also throws Error if the packed
// bytes are cut short.
inline Result<std::vector<std::uint8_t>> try_unpack(Bytes packed, std::uint64_t words = CAPNP_CANONICAL_WORDS) {
    Result<std::size_t> size = detail::unpacked_size(packed, words);
    if (!size) return size.error();
    std::vector<std::uint8_t> to(*size);
    size = detail::unpack_to(to.data(), to.size(), packed);
    if (!size) return size.error();
    return to;
}
[[nodiscard]] inline std::vector<std::uint8_t> unpack(Bytes packed, std::uint64_t words = CAPNP_CANONICAL_WORDS) {
    return try_unpack(packed, words).value();
}

// The same into a buffer that you keep, like copy_into.
inline Result<Bytes> try_unpack_into(std::vector<std::uint8_t>& buffer CAPNP_CANONICAL_LIFETIMEBOUND, Bytes packed,
                                     std::uint64_t words = CAPNP_CANONICAL_WORDS) {
    if (detail::overlap(packed.data(), packed.size(), buffer.data(), buffer.capacity())) detail::refuse_overlap();
    detail::Written to(buffer);
    Result<std::size_t> size = detail::unpacked_size(packed, words);
    if (!size) return size.error();
    size = detail::unpack_to(to.grow(*size), *size, packed);
    if (!size) return size.error();
    return to.cut(*size);
}
inline Bytes unpack_into(std::vector<std::uint8_t>& buffer CAPNP_CANONICAL_LIFETIMEBOUND, Bytes packed,
                         std::uint64_t words = CAPNP_CANONICAL_WORDS) {
    return try_unpack_into(buffer, packed, words).value();
}

// Packs whole words, such as the frames of one or more messages: what capnp::writePackedMessage writes. Throws Error with the
// number CAPNP_CANONICAL_SEGMENT_IS_NOT_WHOLE_WORDS if the number of bytes isn't a multiple of 8.
inline Result<std::vector<std::uint8_t>> try_pack(Bytes frames) {
    std::vector<std::uint8_t> to(capnp_canonical_pack_bound(frames.size()));
    std::size_t written = 0;
    const std::uint32_t answer = capnp_canonical_pack(frames.data(), frames.size(), to.data(), to.size(), &written);
    if (answer != CAPNP_CANONICAL_DONE) return Refusal(answer, frames.place());
    to.resize(written);
    return to;
}
[[nodiscard]] inline std::vector<std::uint8_t> pack(Bytes frames) { return try_pack(frames).value(); }

// The frames of a stream, in order: `for (Bytes frame : Frames(stream))`. Each knows its place, and an Error about it
// reports that. Throws Error if the remaining bytes don't start with a frame.
class Frames {
public:
    // The bytes of the stream have to stay where they are as long as its frames are used.
    explicit Frames(Bytes stream CAPNP_CANONICAL_LIFETIMEBOUND, std::uint64_t words = CAPNP_CANONICAL_WORDS) noexcept
        : stream_(stream), words_(words) {}
    // Keeps a stream that nothing else keeps, as in `for (Bytes frame : Frames(unpack(packed)))`. The frames can be
    // used as long as this or a copy of it is there.
    template <typename Range, typename = detail::IfTemporary<Range>>
    explicit Frames(Range&& stream, std::uint64_t words = CAPNP_CANONICAL_WORDS)
        : Frames(std::make_shared<const std::remove_cv_t<Range>>(std::forward<Range>(stream)), words, nullptr) {}

    class CAPNP_CANONICAL_VIEW Iterator {
    public:
        // What `->` goes through, since the iterator makes each Bytes anew.
        class Arrow {
        public:
            explicit Arrow(Bytes frame) noexcept : frame_(frame) {}
            const Bytes* operator->() const noexcept { return &frame_; }

        private:
            Bytes frame_;
        };
        using iterator_category = std::input_iterator_tag;
        using iterator_concept = std::forward_iterator_tag;
        using value_type = Bytes;
        using difference_type = std::ptrdiff_t;
        using pointer = Arrow;
        using reference = Bytes;

        Iterator() = default;
        Iterator(Bytes rest, std::uint64_t words) : rest_(rest.data(), rest.size(), {1, 0}), words_(words) {
            measure();
        }

        Bytes operator*() const noexcept { return {rest_.data(), size_, rest_.place()}; }
        Arrow operator->() const noexcept { return Arrow(**this); }
        Iterator& operator++() {
            Place next = {rest_.place().message + 1, rest_.place().byte + size_};
            rest_ = {rest_.data() + size_, rest_.size() - size_, next};
            measure();
            return *this;
        }
        Iterator operator++(int) {
            Iterator before = *this;
            ++*this;
            return before;
        }
        friend bool operator==(const Iterator& a, const Iterator& b) noexcept {
            return a.rest_.size() == b.rest_.size();
        }
        friend bool operator!=(const Iterator& a, const Iterator& b) noexcept { return !(a == b); }

    private:
        void measure() { size_ = rest_.empty() ? 0 : frame_size(rest_, words_); }

        Bytes rest_;
        std::uint64_t words_ = 0;
        std::size_t size_ = 0;
    };

    [[nodiscard]] Iterator begin() const CAPNP_CANONICAL_LIFETIMEBOUND { return {stream_, words_}; }
    [[nodiscard]] Iterator end() const noexcept { return {}; }

private:
    template <typename Range>
    Frames(std::shared_ptr<const Range> kept, std::uint64_t words, std::nullptr_t)
        : stream_(*kept), words_(words), kept_(std::move(kept)) {}

    Bytes stream_;
    std::uint64_t words_;
    std::shared_ptr<const void> kept_;
};

namespace detail {

// How many bytes came, if a program's function for reading says so of room for `size`.
inline std::size_t came_of(std::size_t came, std::size_t size) {
    if (came > size) raise(std::length_error("capnp_canonical: more bytes were read than there was room for"));
    return came;
}

}  // namespace detail

// The frames of a stream that is read as it comes, such as a socket or a pipe. Reads no byte after the frame that it
// returns, and makes room for at most as many bytes as have come, or for 256 KiB.
//
//     capnp_canonical::FrameReader frames([&](std::uint8_t* to, std::size_t size) {
//         in.read(reinterpret_cast<char*>(to), static_cast<std::streamsize>(size));
//         return static_cast<std::size_t>(in.gcount());
//     });
//     while (std::optional<capnp_canonical::Bytes> frame = frames.next()) ..
//
// `read` waits for bytes, puts at most `size` of them at `to`, and returns how many; 0 at the end of the stream. If it
// returns more than `size`, `next` throws std::length_error. What it throws passes through `next`. After a refusal or
// an exception the reader is at no frame's start any more, and has no more frames.
template <typename Read>
class FrameReader {
public:
    explicit FrameReader(Read read, std::uint64_t words = CAPNP_CANONICAL_WORDS)
        : read_(std::move(read)), words_(words) {}

    // The next frame, whose bytes stay as they are until the next call or the end of the reader; nothing at the end of
    // the stream. Throws Error if the next bytes aren't a frame of at most as many words, or the stream ends within one.
    std::optional<Bytes> next() CAPNP_CANONICAL_LIFETIMEBOUND { return try_next().value(); }

    // The same; refused in place of throwing Error.
    Result<std::optional<Bytes>> try_next() CAPNP_CANONICAL_LIFETIMEBOUND {
        if (std::exchange(over_, true)) return std::optional<Bytes>();
        const Place here = {place_.message + 1, place_.byte};
        std::size_t held = 0;
        for (std::size_t wanted = smallest; held < wanted;) {
            const std::size_t room = std::min(wanted, held + std::max(held, piece));
            if (buffer_.size() < room) buffer_.resize(room);
            const std::size_t came = detail::came_of(read_(buffer_.data() + held, room - held), room - held);
            if (came == 0 && held == 0) return std::optional<Bytes>();
            if (came == 0) {
                return Refusal(CAPNP_CANONICAL_TRUNCATED, here, wanted, capnp_canonical_looks_like(buffer_.data(), held));
            }
            held += came;
            if (held == wanted) {
                const Result<std::size_t> size = try_frame_size_from_prefix({buffer_.data(), held, here}, words_);
                if (!size) return size.error();
                wanted = *size;
            }
        }
        place_ = {here.message, here.byte + held};
        over_ = false;
        return std::optional<Bytes>(Bytes(buffer_.data(), held, here));
    }

private:
    // The size of the smallest segment table.
    static constexpr std::size_t smallest = 8;
    static constexpr std::size_t piece = std::size_t{1} << 18;

    Read read_;
    std::uint64_t words_;
    std::vector<std::uint8_t> buffer_;
    // The number of the last frame, and the byte after it.
    Place place_;
    // Whether there are no more frames.
    bool over_ = false;
};

// The frames of a packed stream that is read as it comes, such as capnp::writePackedMessage writes to a socket. Made and
// used like a FrameReader; `read` reads packed bytes. Reads up to 64 KiB ahead, and keeps them for the next frames. Makes
// room for at most twice the unpacked bytes that have come, or for 256 KiB.
template <typename Read>
class PackedFrameReader {
public:
    explicit PackedFrameReader(Read read, std::uint64_t words = CAPNP_CANONICAL_WORDS)
        : read_(std::move(read)), words_(words), packed_(std::size_t{1} << 16) {}

    // The next frame, unpacked; its bytes stay as they are until the next call or the end of the reader. Nothing at the end
    // of the stream. Throws Error if the next bytes aren't a frame of at most as many words, or the stream ends within one,
    // or before the count after a word.
    std::optional<Bytes> next() CAPNP_CANONICAL_LIFETIMEBOUND { return try_next().value(); }

    // The same; refused in place of throwing Error.
    Result<std::optional<Bytes>> try_next() CAPNP_CANONICAL_LIFETIMEBOUND {
        if (std::exchange(over_, true)) return std::optional<Bytes>();
        const Place here = {place_.message + 1, place_.byte};
        for (std::size_t held = 0;;) {
            std::size_t taken = 0, wanted = 0;
            const std::uint32_t answer =
                capnp_canonical_unpack_frame(&unpacking_, packed_.data() + first_, end_ - first_, words_, frame_.data(),
                                             frame_.size(), &held, &taken, &wanted);
            first_ += taken;
            packed_bytes_ += taken;
            if (answer == CAPNP_CANONICAL_NO_ROOM) {
                frame_.resize(std::min(wanted, held + std::max(held, piece)));
            } else if (answer == CAPNP_CANONICAL_DONE) {
                place_ = {here.message, here.byte + held};
                over_ = false;
                return std::optional<Bytes>(Bytes(frame_.data(), held, here));
            } else if (answer != CAPNP_CANONICAL_TRUNCATED) {
                return Refusal(answer, here);
            } else if (!read_more()) {
                if (held == 0 && capnp_canonical_is_unpacked(&unpacking_)) return std::optional<Bytes>();
                return Refusal(answer, here, wanted);
            }
        }
    }

    // The number of packed bytes that the frames so far took.
    [[nodiscard]] std::uint64_t packed_bytes() const noexcept { return packed_bytes_; }

private:
    // Reads packed bytes, if there are none left. Returns whether some came.
    bool read_more() {
        first_ = end_ = 0;
        end_ = detail::came_of(read_(packed_.data(), packed_.size()), packed_.size());
        return end_ > 0;
    }

    static constexpr std::size_t piece = std::size_t{1} << 18;

    Read read_;
    std::uint64_t words_;
    // The packed bytes that were read and not yet unpacked are from `first_` to `end_`.
    std::vector<std::uint8_t> packed_, frame_;
    std::size_t first_ = 0, end_ = 0;
    capnp_canonical_unpacking unpacking_ = {};
    std::uint64_t packed_bytes_ = 0;
    // The number of the last frame, and the byte after it.
    Place place_;
    // Whether there are no more frames.
    bool over_ = false;
};

// The version of the linked library: major * 10000 + minor * 100 + patch.
[[nodiscard]] inline std::uint32_t version() noexcept { return capnp_canonical_version(); }

// Throws std::runtime_error if the linked library is older than this header, or of another major version, and says which it
// is. A program with several parts may have been linked with one library and started with another.
inline void require_version() {
    const std::uint32_t found = version(), wanted = CAPNP_CANONICAL_VERSION;
    if (found >= wanted && found / 10000 == wanted / 10000) return;
    const auto text = [](std::uint32_t it) {
        return std::to_string(it / 10000) + "." + std::to_string(it / 100 % 100) + "." + std::to_string(it % 100);
    };
    detail::raise(std::runtime_error("capnp_canonical: the library has version " + text(found) + ", and the header " +
                                     text(wanted)));
}

}  // namespace capnp_canonical

// The calls for the types of C++ Cap'n Proto, if a program asks for them.
#ifdef CAPNP_CANONICAL_WITH_CAPNP
#include "capnp_canonical_capnp.hpp"
#endif

#endif
