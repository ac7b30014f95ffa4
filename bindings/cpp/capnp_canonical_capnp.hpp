// The calls of capnp_canonical.hpp for the types of C++ Cap'n Proto. A message may be a capnp::MessageReader or a
// capnp::MessageBuilder, for which no frame is made, or the reader or builder of any struct, list or pointer inside a
// message; a kj::Array or kj::ArrayPtr of capnp::word converts to Bytes. Needs Cap'n Proto's own headers and libraries.
#ifndef CAPNP_CANONICAL_CAPNP_HPP
#define CAPNP_CANONICAL_CAPNP_HPP

#include "capnp_canonical.hpp"

#include <capnp/any.h>
#include <capnp/message.h>

namespace capnp_canonical {

namespace detail {

template <>
inline constexpr bool is_word<capnp::word> = true;

}  // namespace detail

// The segments of a message. An empty segment without an address ends them.
inline Segments segments_of(capnp::MessageReader& message) {
    Segments segments;
    for (unsigned id = 0;; id++) {
        auto segment = message.getSegment(id);
        if (segment.begin() == nullptr) return segments;
        segments.add(segment);
    }
}

// The segments of a message that is being built, valid until it changes.
inline Segments segments_of(capnp::MessageBuilder& message) { return {message.getSegmentsForOutput()}; }
inline Segments segments_of(kj::ArrayPtr<const kj::ArrayPtr<const capnp::word>> message) { return {message}; }

namespace detail {

template <typename Message>
constexpr bool is_message =
    std::is_base_of_v<capnp::MessageReader, Message> || std::is_base_of_v<capnp::MessageBuilder, Message>;
template <typename Message>
using IfMessage = std::enable_if_t<is_message<Message>>;

// A reader of a struct, a list or a pointer. A text or data isn't one: its bytes would be taken for a frame.
template <typename Value, typename = void>
constexpr bool is_reader = false;
template <typename Value>
constexpr bool is_reader<Value, std::void_t<typename Value::Reads>> =
    !std::is_same_v<typename Value::Reads, capnp::Text> && !std::is_same_v<typename Value::Reads, capnp::Data>;

// A builder of one.
template <typename Value, typename = void>
constexpr bool is_builder = false;
template <typename Value>
using ReaderOf = std::decay_t<decltype(std::declval<const Value&>().asReader())>;
template <typename Value>
constexpr bool is_builder<Value, std::void_t<typename Value::Builds, ReaderOf<Value>>> = is_reader<ReaderOf<Value>>;

// A value inside a message.
template <typename Value>
constexpr bool is_value = !is_message<Value> && (is_reader<Value> || is_builder<Value>);

template <typename Message>
using IfCopied = std::enable_if_t<is_message<std::remove_cv_t<std::remove_reference_t<Message>>> ||
                                  is_value<std::remove_cv_t<std::remove_reference_t<Message>>>>;

template <typename Reader, typename = void>
constexpr bool has_total_size = false;
template <typename Reader>
constexpr bool has_total_size<Reader, std::void_t<decltype(std::declval<const Reader&>().totalSize())>> = true;

// The words for the first segment of the copy of a value: all, with the root pointer, if its type says how many.
template <typename Reader>
unsigned first_segment(const Reader& value) {
    std::uint64_t words = 1023;
    if constexpr (has_total_size<Reader>) words = value.totalSize().wordCount;
    if constexpr (std::is_same_v<Reader, capnp::AnyPointer::Reader>) words = value.targetSize().wordCount;
    return unsigned(std::min<std::uint64_t>(words + 1, 1 << 28));
}

// Uses the segments of a message. Cap'n Proto first copies a value inside a message into a message of its own.
template <typename Message, typename Use>
std::invoke_result_t<Use, const Segments&> with_segments(Message& given, Use use) {
    if constexpr (std::is_same_v<std::remove_cv_t<Message>, Segments>) {
        return use(given);
    } else if constexpr (is_message<Message>) {
        return use(segments_of(given));
    } else if constexpr (is_builder<std::remove_cv_t<Message>>) {
        auto reader = given.asReader();
        return with_segments(reader, use);
    } else {
        capnp::MallocMessageBuilder message(first_segment<std::remove_cv_t<Message>>(given));
        message.setRoot(given);
        return use(segments_of(message));
    }
}

constexpr Limits LARGEST_LIMITS = {CAPNP_CANONICAL_MAX_NESTING, std::numeric_limits<std::uint64_t>::max()};

}  // namespace detail

// The limits that the reader was made with. This takes nothing from the traversal limit that the reader counts.
inline Limits limits_of(capnp::MessageReader& message) {
    const capnp::ReaderOptions& options = message.getOptions();
    return {options.nestingLimit, options.traversalLimitInWords};
}
// The defaults.
inline Limits limits_of(const Segments&) { return {}; }
// No limit on words, like capnp::canonicalize, and the largest nesting limit: your program has built the message.
inline Limits limits_of(capnp::MessageBuilder&) { return detail::LARGEST_LIMITS; }
// The same: Cap'n Proto reads the value within the limits of its message, and copies it.
template <typename Value, typename = std::enable_if_t<detail::is_value<Value>>>
Limits limits_of(const Value&) {
    return detail::LARGEST_LIMITS;
}

// The calls above for a MessageReader or a MessageBuilder. The copies, the digests and equal also take a value inside a
// message: a reader or builder of a struct (also AnyStruct), a list (also AnyList) or AnyPointer. Cap'n Proto reads and copies
// such a value first, and throws its own exceptions if that fails. (pack takes a frame, such as what messageToFlatArray
// returns or copy: the frame itself is packed by Cap'n Proto's own writePackedMessage.)
template <typename Message, typename = detail::IfCopied<Message>>
[[nodiscard]] std::vector<std::uint8_t> copy(Message&& message, Limits limits) {
    return detail::with_segments(message, [&](const Segments& it) { return copy(it, limits); });
}
template <typename Message, typename = detail::IfCopied<Message>>
[[nodiscard]] std::vector<std::uint8_t> copy(Message&& message) {
    return copy(message, limits_of(message));
}

template <typename Message, typename = detail::IfCopied<Message>>
[[nodiscard]] Words canonical_words(Message&& message, Limits limits) {
    return detail::with_segments(message, [&](const Segments& it) { return canonical_words(it, limits); });
}
template <typename Message, typename = detail::IfCopied<Message>>
[[nodiscard]] Words canonical_words(Message&& message) {
    return canonical_words(message, limits_of(message));
}

template <typename Message, typename = detail::IfCopied<Message>>
[[nodiscard]] std::vector<std::uint8_t> copy_flat(Message&& message, Limits limits) {
    return detail::with_segments(message, [&](const Segments& it) { return copy_flat(it, limits); });
}
template <typename Message, typename = detail::IfCopied<Message>>
[[nodiscard]] std::vector<std::uint8_t> copy_flat(Message&& message) {
    return copy_flat(message, limits_of(message));
}

template <typename Message, typename = detail::IfCopied<Message>>
Bytes copy_into(std::vector<std::uint8_t>& buffer CAPNP_CANONICAL_LIFETIMEBOUND, Message&& message, Limits limits) {
    return detail::with_segments(message, [&](const Segments& it) { return copy_into(buffer, it, limits); });
}
template <typename Message, typename = detail::IfCopied<Message>>
Bytes copy_into(std::vector<std::uint8_t>& buffer CAPNP_CANONICAL_LIFETIMEBOUND, Message&& message) {
    return copy_into(buffer, message, limits_of(message));
}

template <typename Message, typename = detail::IfCopied<Message>>
Bytes copy_flat_into(std::vector<std::uint8_t>& buffer CAPNP_CANONICAL_LIFETIMEBOUND, Message&& message,
                     Limits limits) {
    return detail::with_segments(
        message, [&](const Segments& it) { return copy_flat_into(buffer, it, limits); });
}
template <typename Message, typename = detail::IfCopied<Message>>
Bytes copy_flat_into(std::vector<std::uint8_t>& buffer CAPNP_CANONICAL_LIFETIMEBOUND, Message&& message) {
    return copy_flat_into(buffer, message, limits_of(message));
}

template <typename Message, typename = detail::IfCopied<Message>>
[[nodiscard]] Digest digest(Message&& message, Limits limits) {
    return detail::with_segments(message, [&](const Segments& it) { return digest(it, limits); });
}
template <typename Message, typename = detail::IfCopied<Message>>
[[nodiscard]] Digest digest(Message&& message) {
    return digest(message, limits_of(message));
}

// The prefix may be the 8 bytes of a type's id, such as capnp::typeId<Person>().
template <typename Message, typename = detail::IfCopied<Message>>
[[nodiscard]] Digest digest_with(Bytes prefix, Message&& message, Limits limits) {
    return detail::with_segments(message, [&](const Segments& it) { return digest_with(prefix, it, limits); });
}
template <typename Message, typename = detail::IfCopied<Message>>
[[nodiscard]] Digest digest_with(Bytes prefix, Message&& message) {
    return digest_with(prefix, message, limits_of(message));
}

// The two may be of different kinds, such as the reader of a struct and a MessageBuilder. Without limits, each is read
// within its own; if these differ, the words of both are copied, and compared.
template <typename Message, typename Other, typename = detail::IfCopied<Message>, typename = detail::IfCopied<Other>>
[[nodiscard]] bool equal(Message&& message, Other&& other, Limits limits) {
    return detail::with_segments(message, [&](const Segments& it) {
        return detail::with_segments(other, [&](const Segments& that) { return equal(it, that, limits); });
    });
}
template <typename Message, typename Other, typename = detail::IfCopied<Message>, typename = detail::IfCopied<Other>>
[[nodiscard]] bool equal(Message&& message, Other&& other) {
    const Limits limits = limits_of(message), others = limits_of(other);
    if (limits == others) return equal(message, other, limits);
    return copy_flat(message, limits) == copy_flat(other, others);
}

template <typename Message, typename = detail::IfMessage<Message>>
[[nodiscard]] Checked check(Message& message, Limits limits) {
    return check(segments_of(message), limits);
}
template <typename Message, typename = detail::IfMessage<Message>>
[[nodiscard]] Checked check(Message& message) {
    return check(message, limits_of(message));
}

template <typename Message, typename = detail::IfMessage<Message>>
[[nodiscard]] bool is_canonical(Message& message, Limits limits) {
    return is_canonical(segments_of(message), limits);
}
template <typename Message, typename = detail::IfMessage<Message>>
[[nodiscard]] bool is_canonical(Message& message) {
    return is_canonical(message, limits_of(message));
}

template <typename Message, typename = detail::IfMessage<Message>>
[[nodiscard]] Size size(Message& message, Limits limits) {
    return size(segments_of(message), limits);
}
template <typename Message, typename = detail::IfMessage<Message>>
[[nodiscard]] Size size(Message& message) {
    return size(message, limits_of(message));
}

// Like copy_flat, for a message, its segments, or a value inside a message, but returns an array of words, like
// capnp::canonicalize.
template <typename Message>
[[nodiscard]] kj::Array<capnp::word> canonicalize(Message&& message, Limits limits) {
    return detail::with_segments(message, [&](const Segments& it) {
        kj::Array<capnp::word> to;
        const std::size_t written = detail::copied(
                                        detail::SegmentSource(it, limits), detail::Form::flat, it.bytes() + sizeof(capnp::word), [&](std::size_t room) {
                                            to = kj::heapArray<capnp::word>(room / sizeof(capnp::word));
                                            return reinterpret_cast<std::uint8_t*>(to.begin());
                                        })
                                        .value();
        if (written == to.size() * sizeof(capnp::word)) return to;
        auto exact = kj::heapArray<capnp::word>(written / sizeof(capnp::word));
        std::memcpy(exact.begin(), to.begin(), written);
        return exact;
    });
}
template <typename Message>
[[nodiscard]] kj::Array<capnp::word> canonicalize(Message&& message) {
    return canonicalize(message, limits_of(message));
}

// The same into the front of an array of yours. Returns the part that is written. Throws Error if the array is too
// small, which says how much is needed, and std::invalid_argument if the message is inside the array.
template <typename Message>
kj::ArrayPtr<const capnp::word> canonicalize_into(kj::ArrayPtr<capnp::word> to, Message&& message, Limits limits) {
    return detail::with_segments(message, [&](const Segments& it) {
        const detail::SegmentSource source(it, limits);
        const std::size_t room = to.size() * sizeof(capnp::word);
        if (source.overlaps(to.begin(), room)) detail::refuse_overlap();
        std::size_t written = 0;
        auto front = reinterpret_cast<std::uint8_t*>(to.begin());
        const std::uint32_t answer = source.copy(detail::Form::flat, front, room, &written);
        if (answer == CAPNP_CANONICAL_NO_ROOM) detail::raise(Error(answer, {}, written));
        if (answer != CAPNP_CANONICAL_DONE) {
            detail::raise(Error(detail::refusal_of(source, answer, CAPNP_CANONICAL_READING_CANONICAL)));
        }
        return to.slice(0, written / sizeof(capnp::word)).asConst();
    });
}
template <typename Message>
kj::ArrayPtr<const capnp::word> canonicalize_into(kj::ArrayPtr<capnp::word> to, Message&& message) {
    return canonicalize_into(to, message, limits_of(message));
}

}  // namespace capnp_canonical

#endif
