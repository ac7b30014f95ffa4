// Tests of capnp_canonical.hpp, without Cap'n Proto's own headers.
//
//     messages FILE PACKED PARTS STREAMS PLACES PREFIXES    the messages of messages.txt, what packed.txt has, and the rows of parts.txt, of
//                                                  streams.txt and of places.txt; a line `ok: NAME` or `FAILED: NAME: WHAT` for
//                                                  each test
#include "capnp_canonical.hpp"

#include <algorithm>
#include <array>
#include <cstdio>
#include <cstdlib>
#include <ctime>
#include <fstream>
#include <functional>
#include <optional>
#include <sstream>
#include <stdexcept>
#include <string>
#include <string_view>
#include <vector>
#if __cplusplus >= 202002L
#include <ranges>
#include <span>
static_assert(std::ranges::input_range<capnp_canonical::Frames>);
#endif

using capnp_canonical::Bytes;
using capnp_canonical::Error;
using capnp_canonical::Segments;
using Vector = std::vector<std::uint8_t>;

bool failed = false;

void test(const std::string& name, const std::function<void()>& body) {
    try {
        body();
        printf("ok: %s\n", name.c_str());
    } catch (const std::exception& error) {
        printf("FAILED: %s: %s\n", name.c_str(), error.what());
        failed = true;
    }
}

// For a call whose refusal is wanted, not its result.
template <typename Value>
void unused(const Value&) {}

void require(bool holds, const std::string& what) {
    if (!holds) throw std::logic_error(what);
}

void require_same(const std::string& what, const std::string& got, const std::string& wanted) {
    require(got == wanted, what + " gives " + got + ", and " + wanted + " is wanted");
}

Vector bytes_of(const std::string& digits) {
    Vector bytes;
    if (digits == "-") return bytes;
    for (std::size_t at = 0; at < digits.size(); at += 2) {
        bytes.push_back(std::uint8_t(std::stoi(digits.substr(at, 2), nullptr, 16)));
    }
    return bytes;
}

std::string digits_of(Bytes bytes) {
    std::string digits;
    for (std::uint8_t byte : bytes) {
        char two[3];
        snprintf(two, sizeof two, "%02x", byte);
        digits += two;
    }
    return digits.empty() ? "-" : digits;
}

std::uint32_t number_at(const Vector& bytes, std::size_t at) {
    std::uint32_t number = 0;
    for (std::size_t i = 4; i-- > 0;) number = number << 8 | bytes[at + i];
    return number;
}

// A frame of one segment.
Vector framed(const Vector& words) {
    Vector frame(8);
    for (std::size_t i = 0; i < 4; i++) frame[4 + i] = std::uint8_t(words.size() / 8 >> 8 * i);
    frame.insert(frame.end(), words.begin(), words.end());
    return frame;
}

// The segments of a whole frame.
Segments segments_in(const Vector& frame) {
    std::size_t count = number_at(frame, 0) + std::size_t(1), at = (4 + 4 * count + 7) / 8 * 8;
    Segments segments;
    for (std::size_t id = 0; id < count; id++) {
        std::size_t size = number_at(frame, 4 + 4 * id) * std::size_t(8);
        segments.add({frame.data() + at, size});
        at += size;
    }
    return segments;
}

// What a call gives as text, or the name of its refusal.
std::string answer(const std::function<std::string()>& call) {
    try {
        return call();
    } catch (const Error& error) {
        return error.name();
    }
}

// What the error says that a call throws.
std::string what(const std::function<void()>& call) {
    try {
        call();
    } catch (const Error& error) {
        return error.what();
    }
    return "no refusal";
}

template <typename Message>
void require_answers(const Message& message, const std::string& copy, const std::string& flat, const std::string& check,
                     const std::string& size, const std::string& digest) {
    std::string words = copy == "Done" ? flat : copy;
    std::string frame = copy == "Done" ? digits_of(framed(bytes_of(flat))) : copy;
    require_same("copy", answer([&] { return digits_of(capnp_canonical::copy(message)); }), frame);
    require_same("copy_flat", answer([&] { return digits_of(capnp_canonical::copy_flat(message)); }), words);
    require_same("digest", answer([&] { return digits_of(capnp_canonical::digest(message)); }), copy == "Done" ? digest : copy);
    require_same("check", answer([&] {
                     auto checked = capnp_canonical::check(message);
                     if (checked.is_canonical()) return std::string("yes");
                     const auto& fault = checked.fault();
                     return std::to_string(fault.reason) + "," + std::to_string(fault.segment) + "," +
                            std::to_string(fault.word);
                 }), check);
    require(capnp_canonical::is_canonical(message) == (check == "yes"), "is_canonical");
    Vector buffer;
    for (int round = 0; round < 2; round++) {
        require_same("copy_into", answer([&] { return digits_of(capnp_canonical::copy_into(buffer, message)); }), frame);
        require_same("copy_flat_into", answer([&] { return digits_of(capnp_canonical::copy_flat_into(buffer, message)); }), words);
    }
    require_same("size", answer([&] {
                     auto measured = capnp_canonical::size(message);
                     return std::to_string(measured.words) + "," + std::to_string(measured.capabilities);
                 }), size);
}

// Canonical words, by the calls of raw words.
void require_words(const Vector& flat, const std::string& digest) {
    require(capnp_canonical::words_copy(flat) == flat, "words_copy");
    require_same("words_digest", digits_of(capnp_canonical::words_digest(flat)), digest);
    require(capnp_canonical::words_is_canonical(flat) && capnp_canonical::words_check(flat).is_canonical(), "words_check");
    require(capnp_canonical::words_size(flat).words >= flat.size() / 8 - 1, "words_size");
}

void test_messages(const char* path) {
    std::ifstream file(path);
    int count = 0;
    for (std::string line; std::getline(file, line);) {
        if (line.empty() || line[0] == '#') continue;
        std::string name, digits, copy, flat, check, size, digest;
        std::istringstream(line) >> name >> digits >> copy >> flat >> check >> size >> digest;
        Vector frame = bytes_of(digits);
        count++;
        test(name, [&] { require_answers(Bytes(frame), copy, flat, check, size, digest); });
        if (copy == "Truncated" || copy == "NoMessage") continue;
        test(name + " by its segments", [&] { require_answers(segments_in(frame), copy, flat, check, size, digest); });
        if (copy == "Done") test(name + " by its words", [&] { require_words(bytes_of(flat), digest); });
    }
    test("ten messages", [&] { require(count == 10, std::to_string(count) + " messages"); });
}

// A struct of three words, of which the last is zero.
const Vector ZERO_WORD = bytes_of("000000000400000000000000030000001111111111111111ffffffffffffffff0000000000000000");
const Vector ZERO_WORD_FLAT = bytes_of("00000000020000001111111111111111ffffffffffffffff");
// Two pointers to one text of 16 bytes: its canonical form has two texts, and is longer.
const Vector SHARED =
    bytes_of("0000000005000000000000000000020005000000820000000100000082000000"
             "61626364656667686162636465666700");
const Vector SHARED_FLAT =
    bytes_of("00000000000002000500000082000000090000008200000061626364656667686162636465666700"
             "61626364656667686162636465666700");

void test_ranges() {
    const auto& whole = ZERO_WORD;
    require(capnp_canonical::copy_flat(whole) == ZERO_WORD_FLAT, "a vector");
    require(capnp_canonical::copy_flat({whole.data(), whole.size()}) == ZERO_WORD_FLAT, "a pointer and a size");
    std::string text(whole.begin(), whole.end());
    require(capnp_canonical::copy_flat(text) == ZERO_WORD_FLAT, "a string");
    require(capnp_canonical::copy_flat(std::string_view(text)) == ZERO_WORD_FLAT, "a string_view");
    std::array<std::byte, 41> odd = {};
    for (std::size_t i = 0; i < whole.size(); i++) odd[i + 1] = std::byte(whole[i]);
    require(capnp_canonical::copy_flat({odd.data() + 1, 40}) == ZERO_WORD_FLAT, "an odd address");
#ifdef __cpp_lib_span
    std::span<const std::byte> behind = std::span<const std::byte>(odd).subspan(1);
    require(capnp_canonical::copy_flat(behind) == ZERO_WORD_FLAT, "a span of std::byte");
    require(capnp_canonical::copy_flat(std::span<const std::uint8_t>(whole)) == ZERO_WORD_FLAT, "a span of uint8_t");
    require(capnp_canonical::copy_flat(std::span<std::byte>(odd).subspan<1>()) == ZERO_WORD_FLAT, "a span of fixed size");
#endif
}

void test_segments() {
    Bytes words(ZERO_WORD.data() + 8, 32);
    require(capnp_canonical::copy_flat(Segments{words}) == ZERO_WORD_FLAT, "one segment");
    require(capnp_canonical::copy_flat(Segments{words, {}}) == ZERO_WORD_FLAT, "an empty segment behind it");
    require_same("no segment", answer([] { return digits_of(capnp_canonical::copy(Segments())); }), "InvalidSegmentId");
    require_same("half a word", answer([&] { return digits_of(capnp_canonical::copy(Segments{{words.data(), 28}})); }),
                 "SegmentIsNotWholeWords");
}

void test_longer_copies() {
    require(capnp_canonical::copy_flat(SHARED) == SHARED_FLAT, "flat");
    require(capnp_canonical::copy(SHARED) == framed(SHARED_FLAT), "framed");
    require(capnp_canonical::copy_flat(segments_in(SHARED)) == SHARED_FLAT, "flat, by segments");
    require(capnp_canonical::copy(segments_in(SHARED)) == framed(SHARED_FLAT), "framed, by segments");
}

void test_limits() {
    require(capnp_canonical::copy_flat(ZERO_WORD, {2, 4}) == ZERO_WORD_FLAT, "limits that are met");
    require_same("a frame beyond the limit", answer([] { return digits_of(capnp_canonical::copy(ZERO_WORD, {2, 3})); }),
                 "MessageTooLong");
    require_same("no level", answer([] { return digits_of(capnp_canonical::copy(ZERO_WORD, {0, 4})); }),
                 "MessageIsTooDeeplyNestedOrContainsCycles");
    require_same("words read twice", answer([] { return digits_of(capnp_canonical::copy(SHARED, {64, 6})); }),
                 "ReadLimitExceeded");
}

void test_faults() {
    auto checked = capnp_canonical::check(ZERO_WORD);
    require(!checked.is_canonical(), "no fault");
    require(checked.fault().reason == CAPNP_CANONICAL_REASON_DATA_SECTION, "another reason");
    require_same("text", checked.fault().text(), "a data section whose last word is zero at segment 0, word 3");
    require_same("text", checked.text(), "not canonical: a data section whose last word is zero at segment 0, word 3");
    auto again = capnp_canonical::check(capnp_canonical::copy(ZERO_WORD));
    require(again.is_canonical() && again.text() == "canonical", "a fault of a canonical message");
}

// `if (check(message))` isn't compiled.
static_assert(!std::is_constructible_v<bool, capnp_canonical::Checked>);
static_assert(!std::is_convertible_v<capnp_canonical::Checked, bool>);

// Canonical words of a struct of two numbers, 2^32 and 42, given where a frame is expected: they are read as a frame of two
// words, which hold a struct of the number 42.
void test_hazard() {
    const Vector words = bytes_of("000000000200000000000000010000002a00000000000000");
    require(capnp_canonical::words_copy(words) == words, "the words by their name");
    require(capnp_canonical::copy_flat(words) == bytes_of("00000000010000002a00000000000000"), "another value");
}

// The buffer holds the copy and nothing of what was in it, and its memory is used again.
void test_buffer() {
    Vector buffer;
    Bytes first = capnp_canonical::copy_flat_into(buffer, SHARED);
    require(digits_of(first) == digits_of(SHARED_FLAT) && first.data() == buffer.data(), "a buffer that grows");
    require(buffer == SHARED_FLAT, "a buffer of the copy alone");
    std::size_t room = buffer.capacity();
    Bytes second = capnp_canonical::copy_flat_into(buffer, ZERO_WORD);
    require(digits_of(second) == digits_of(ZERO_WORD_FLAT) && second.data() == buffer.data(), "a buffer that is kept");
    require(buffer == ZERO_WORD_FLAT && buffer.capacity() == room, "nothing of the earlier message");
    capnp_canonical::copy_into(buffer, segments_in(SHARED));
    require(buffer == framed(SHARED_FLAT), "a frame of segments");
}

// A buffer is empty after a refusal, so that nothing of an earlier message is taken for the answer.
void test_refused_buffer() {
    Vector buffer;
    auto refused = [&](const char* name, const char* wanted, const std::function<void()>& call) {
        buffer = SHARED_FLAT;
        require_same(name, answer([&] { return call(), std::string("no refusal"); }), wanted);
        require(buffer.empty(), std::string(name) + ": something is left in the buffer");
    };
    Bytes cut(SHARED.data(), 44);
    refused("cut", "Truncated", [&] { capnp_canonical::copy_flat_into(buffer, cut); });
    refused("limit", "ReadLimitExceeded", [&] { capnp_canonical::copy_into(buffer, SHARED, {64, 6}); });
    refused("segments", "InvalidSegmentId", [&] { capnp_canonical::copy_into(buffer, Segments()); });
    refused("packed", "Truncated", [&] { capnp_canonical::unpack_into(buffer, bytes_of("00")); });
    refused("many", "MessageTooLong", [&] { capnp_canonical::unpack_into(buffer, bytes_of("0001"), 1); });
}

// What is read inside of what is written to, in front, at the end, or all of it, is refused, and stays as it is.
void test_overlap() {
    Vector buffer;
    auto refused = [&](const char* name, const Vector& before, const std::function<void()>& call) {
        buffer = before;
        try {
            call();
            require(false, std::string(name) + ": no refusal");
        } catch (const std::invalid_argument&) {
            require(buffer == before, std::string(name) + ": the buffer is changed");
        }
    };
    Vector packed = bytes_of("10021001012a10021001012a");
    Vector larger = packed;
    larger.resize(4096);
    refused("unpacked in place", packed, [&] { capnp_canonical::unpack_into(buffer, buffer); });
    refused("unpacked from the front", larger, [&] { capnp_canonical::unpack_into(buffer, Bytes(buffer.data(), 12)); });
    refused("unpacked from the end", larger, [&] { capnp_canonical::unpack_into(buffer, Bytes(buffer.data() + 4095, 1)); });
    refused("copied in place", SHARED, [&] { capnp_canonical::copy_into(buffer, buffer); });
    refused("copied flat in place", SHARED, [&] { capnp_canonical::copy_flat_into(buffer, Bytes(buffer)); });
    Segments apart = segments_in(ZERO_WORD);
    refused("a segment in place", SHARED, [&] {
        Segments segments = apart;
        segments.add({buffer.data(), 8});
        capnp_canonical::copy_flat_into(buffer, segments);
    });
    buffer.reserve(1 << 16);
    buffer.assign(SHARED.begin(), SHARED.end());
    require(capnp_canonical::copy_flat(buffer) == SHARED_FLAT, "a copy elsewhere");
    Vector other = {1, 2, 3};
    require(digits_of(capnp_canonical::copy_flat_into(other, buffer)) == digits_of(SHARED_FLAT), "another buffer");
}

// Messages that can't be read as a whole, and that are measured or tested all the same.
void test_validation() {
    const Vector voids = bytes_of("0000000002000000000000000000010001000000f8ffffff");
    require(capnp_canonical::size(voids).words == 1, "the size of a list of 536,870,911 void elements");
    require_same("the copy", answer([&] { return digits_of(capnp_canonical::copy(voids)); }), "ReadLimitExceeded");
    const Vector gap_before_outside = bytes_of("000000000300000004000000000001000000000000000000c800000001000000");
    require(!capnp_canonical::check(gap_before_outside).is_canonical(), "a test that stops");
    require_same("the copy", answer([&] { return digits_of(capnp_canonical::copy(gap_before_outside)); }), "MessageContainsOutOfBoundsPointer");
    const Vector capability = bytes_of("000000000200000000000000000001000300000000000000");
    require(capnp_canonical::size(capability).capabilities == 1, "the size of a capability");
}

// A stream that nothing else keeps is kept by Frames.
void test_temporaries() {
    const char* packed = "10021001012a10021001012a10021001012a";
    std::size_t count = 0;
    for (Bytes frame : capnp_canonical::Frames(capnp_canonical::unpack(bytes_of(packed)))) {
        require(capnp_canonical::copy_flat(frame) == bytes_of("00000000010000002a00000000000000"), "a message");
        count++;
    }
    require(count == 3, "three messages");
    capnp_canonical::Frames frames(std::string(ZERO_WORD.begin(), ZERO_WORD.end()));
    capnp_canonical::Frames same = frames;
    frames = capnp_canonical::Frames(Bytes());
    for (Bytes frame : same) require(capnp_canonical::copy_flat(frame) == ZERO_WORD_FLAT, "a copy of Frames");
    std::array<std::byte, 40> bytes;
    std::transform(ZERO_WORD.begin(), ZERO_WORD.end(), bytes.begin(), [](std::uint8_t it) { return std::byte(it); });
    for (Bytes frame : capnp_canonical::Frames(std::move(bytes))) require(frame.size() == 40, "an array");
    Vector stream = ZERO_WORD;
    for (Bytes frame : capnp_canonical::Frames(stream)) require(frame.data() == stream.data(), "a view of what is kept elsewhere");
    require(capnp_canonical::Frames(std::move(stream), 4).begin() == capnp_canonical::Frames(ZERO_WORD).begin(), "a limit");
}

// A stream that is read as it comes, at most `most` bytes at a time, and no byte after the frame that is wanted.
void test_frame_reader() {
    const Vector stream = bytes_of(digits_of(ZERO_WORD) + digits_of(SHARED));
    for (std::size_t most = 1; most <= stream.size(); most++) {
        for (std::size_t end = 0; end <= stream.size(); end++) {
            std::size_t at = 0, count = 0;
            capnp_canonical::FrameReader frames([&](std::uint8_t* to, std::size_t size) {
                std::size_t came = std::min({most, size, end - at});
                std::copy_n(stream.data() + at, came, to);
                at += came;
                return came;
            });
            std::string refused;
            try {
                while (std::optional<Bytes> frame = frames.next()) {
                    const Vector& wanted = count++ ? SHARED : ZERO_WORD;
                    require(digits_of(*frame) == digits_of(wanted), "a frame of a reader");
                    require(frame->place().byte == (count == 1 ? 0 : 40) && frame->place().message == count, "its place");
                    require(at == frame->place().byte + wanted.size(), "bytes after a frame");
                }
            } catch (const Error& error) {
                refused = error.name();
                require(error.place().message == count + 1, "which frame is refused");
            }
            require(count == (end == stream.size() ? 2 : end >= 40 ? 1 : 0), "the number of frames");
            require_same("a stream cut short", refused, end == 0 || end == 40 || end == stream.size() ? "" : "Truncated");
        }
    }
    const Vector table = bytes_of("0000000005000000");
    std::size_t at = 0;
    capnp_canonical::FrameReader frames([&](std::uint8_t* to, std::size_t size) {
        std::size_t came = std::min(size, table.size() - at);
        std::copy_n(table.data() + at, came, to);
        at += came;
        return came;
    }, 4);
    require_same("a long frame", answer([&] { return frames.next() ? "a frame" : "nothing"; }), "MessageTooLong");
}

// The words of a row between commas.
std::vector<std::string> parts_of(const std::string& digits) {
    std::vector<std::string> parts;
    std::istringstream words(digits == "-" ? "" : digits);
    for (std::string part; std::getline(words, part, ',');) parts.push_back(part);
    return parts;
}

// Packed streams: rows of streams.txt, which says what they are.
void test_packed_frame_reader(const std::string& file) {
    std::ifstream rows(file);
    std::size_t count = 0;
    for (std::string line; std::getline(rows, line);) {
        if (line.empty() || line[0] == '#') continue;
        std::string name, digits, wanted, end;
        std::istringstream(line) >> name >> digits >> wanted >> end;
        const std::vector<std::string> packed = parts_of(digits), frames = parts_of(wanted);
        Vector stream;
        for (const std::string& part : packed) {
            Vector bytes = bytes_of(part);
            stream.insert(stream.end(), bytes.begin(), bytes.end());
        }
        for (std::size_t most : {std::size_t(1), std::size_t(2), std::size_t(7), stream.size()}) {
            std::size_t at = 0, number = 0, byte = 0, taken = 0;
            capnp_canonical::PackedFrameReader reader([&](std::uint8_t* to, std::size_t size) {
                std::size_t came = std::min({most, size, stream.size() - at});
                std::copy_n(stream.data() + at, came, to);
                at += came;
                return came;
            });
            std::string refused = "Done";
            try {
                while (std::optional<Bytes> frame = reader.next()) {
                    require_same(name, digits_of(*frame), frames.at(number));
                    taken += packed.at(number++).size() / 2;
                    require(frame->place().message == number && frame->place().byte == byte, name + ": the place");
                    require(most < stream.size() || reader.packed_bytes() == taken, name + ": the packed bytes taken");
                    byte += frame->size();
                }
            } catch (const Error& error) {
                refused = error.name();
                require(error.place().message == number + 1 && error.place().byte == byte, name + ": which frame is refused");
            }
            require(number == frames.size(), name + ": the number of frames");
            require_same(name, refused, end);
        }
        count++;
    }
    require(count == 18, std::to_string(count) + " rows");
}

// A part of a message that is given as its segments or, if there is only one, also as raw words.
void test_part_of(const Segments& segments, capnp_canonical::Path path, const std::string& copied, const std::string& hashed, const std::string& what) {
    require_same(what + " of segments, copied", answer([&] { return digits_of(capnp_canonical::copy_flat_at(segments, path)); }), copied);
    require_same(what + " of segments, hashed", answer([&] { return digits_of(capnp_canonical::digest_at(segments, path)); }), hashed);
    const std::string measured = answer([&] { return std::to_string(capnp_canonical::size_at(segments, path).words); });
    if (segments.size() != 1) return;
    const capnp_canonical::Bytes words(segments.data()->bytes, segments.data()->size);
    require_same(what + " of raw words, copied", answer([&] { return digits_of(capnp_canonical::words_copy_at(words, path)); }), copied);
    require_same(what + " of raw words, hashed", answer([&] { return digits_of(capnp_canonical::words_digest_at(words, path)); }), hashed);
    require_same(what + " of raw words, measured", answer([&] { return std::to_string(capnp_canonical::words_size_at(words, path).words); }), measured);
}

// Parts of messages: rows of parts.txt, which says what they are.
void test_parts(const std::string& file) {
    std::ifstream rows(file);
    std::size_t count = 0;
    for (std::string line; std::getline(rows, line);) {
        if (line.empty() || line[0] == '#') continue;
        std::istringstream words(line);
        std::string name, frame, path, wanted, flat, digest;
        words >> name >> frame >> path >> wanted >> flat >> digest;
        std::vector<std::uint32_t> indexes;
        std::istringstream steps(path == "-" ? "" : path);
        for (std::string step; std::getline(steps, step, '.');) indexes.push_back(std::uint32_t(std::stoul(step)));
        const Vector bytes = bytes_of(frame);
        const bool done = wanted == "Done";
        require_same(name + ", copied", answer([&] { return digits_of(capnp_canonical::copy_flat_at(bytes, indexes)); }), done ? flat : wanted);
        require_same(name + ", hashed", answer([&] { return digits_of(capnp_canonical::digest_at(bytes, indexes)); }), done ? digest : wanted);
        const std::string measured = answer([&] { return std::to_string(capnp_canonical::size_at(bytes, indexes).words); });
        if (done) require(8 * std::stoull(measured) + 8 >= bytes_of(flat).size(), name + ", measured");
        const Segments segments = segments_in(bytes);
        require_same(name + " of segments, measured", answer([&] { return std::to_string(capnp_canonical::size_at(segments, indexes).words); }), measured);
        test_part_of(segments, indexes, done ? flat : wanted, done ? digest : wanted, name);
        count++;
    }
    require(count > 60, "too few parts");
}

// The rows of places.txt: for each, a call that reads the message in that way, and the pointer of its refusal.
void test_places(const std::string& file) {
    std::ifstream rows(file);
    std::size_t count = 0;
    for (std::string line; std::getline(rows, line);) {
        if (line.empty() || line[0] == '#') continue;
        std::istringstream words(line);
        std::string name, digits, wanted;
        int reading = 0;
        capnp_canonical::Limits limits;
        capnp_canonical::Pointer pointer{};
        words >> name >> digits >> reading >> limits.nesting >> limits.words >> wanted >> pointer.segment >> pointer.word;
        const Vector frame = bytes_of(digits);
        const Segments segments = segments_in(frame);
        auto call = [&](const auto& message) {
            if (reading == 0) capnp_canonical::validate(message, limits);
            if (reading == 1) unused(capnp_canonical::copy_flat(message, limits));
            if (reading == 2) unused(capnp_canonical::size(message, limits));
        };
        auto found = [&](const auto& message) -> std::string {
            try {
                call(message);
                return "Done";
            } catch (const Error& error) {
                if (!error.pointer()) return error.name();
                const std::string sentence = std::string(error.name()) + " at " + error.pointer()->text();
                require(std::string(error.what()).rfind(sentence + ": ", 0) == 0, name + ", what");
                return sentence;
            }
        };
        if (wanted != "Done") wanted += " at " + pointer.text();
        require_same(name, found(segments), wanted);
        // the limit on words holds for the frame too
        if (limits.words >= segments.bytes() / 8) require_same(name + ", frame", found(Bytes(frame)), wanted);
        count++;
    }
    require(count > 500, "too few places");
}

// Bytes behind the frame at the front cost nothing: 2,000 copies of a message in front of 64 MiB.
void test_bytes_behind() {
    Vector stream(std::size_t(64) << 20);
    std::copy(ZERO_WORD.begin(), ZERO_WORD.end(), stream.begin());
    std::clock_t start = std::clock();
    for (int i = 0; i < 2000; i++) require(capnp_canonical::copy_flat(stream) == ZERO_WORD_FLAT, "another copy");
    require(std::clock() - start < 2 * CLOCKS_PER_SEC, "a copy looks at what stands behind");
}

void test_frames() {
    Vector stream = ZERO_WORD;
    stream.insert(stream.end(), SHARED.begin(), SHARED.end());
    std::vector<std::size_t> sizes;
    for (Bytes frame : capnp_canonical::Frames(stream)) sizes.push_back(frame.size());
    require(sizes == std::vector<std::size_t>{ZERO_WORD.size(), SHARED.size()}, "two frames");
    require(capnp_canonical::frame_size(stream) == ZERO_WORD.size(), "the first");
    for (Bytes frame : capnp_canonical::Frames(Bytes())) require(frame.empty(), "a frame of no bytes");
    stream.pop_back();
    std::size_t count = 0;
    require_same("a stream that is cut", answer([&] {
                     for (Bytes frame : capnp_canonical::Frames(stream)) count += !frame.empty();
                     return std::string("no refusal");
                 }), "Truncated");
    require(count == 1, "the frame before the cut");
    try {
        for (Bytes frame : capnp_canonical::Frames(stream)) count += frame.size();
    } catch (const Error& error) {
        require_same("what", error.what(), "message 2 at byte 40: Truncated: the bytes end inside a frame or a packed word");
        require(error.place().message == 2 && error.place().byte == 40, "the place");
    }
    stream = SHARED;
    stream.insert(stream.end(), ZERO_WORD.begin(), ZERO_WORD.end());
    require_same("a message that is refused", what([&] {
                     for (Bytes frame : capnp_canonical::Frames(stream)) unused(capnp_canonical::copy(frame, {64, 6}));
                 }), "message 1 at byte 0: ReadLimitExceeded at segment 0, word 2: the traversal limit is exceeded");
}

// The rows of packed.txt.
void test_packed(const char* path) {
    std::ifstream file(path);
    int count = 0;
    Vector buffer;
    for (std::string line; std::getline(file, line);) {
        if (line.empty() || line[0] == '#') continue;
        std::string name, digits, wanted;
        std::istringstream(line) >> name >> digits >> wanted;
        Vector packed = bytes_of(digits);
        require_same(name, answer([&] { return digits_of(capnp_canonical::unpack(packed)); }), wanted);
        require_same(name, answer([&] { return digits_of(capnp_canonical::unpack_into(buffer, packed)); }), wanted);
        count++;
    }
    require(count == 22, std::to_string(count) + " rows");
}

void test_unpacked() {
    // three messages by capnp convert binary:packed
    Vector frames = capnp_canonical::unpack(bytes_of("10021001012a10021001012a10021001012a"));
    int count = 0;
    for (Bytes frame : capnp_canonical::Frames(frames)) {
        require(capnp_canonical::copy_flat(frame) == bytes_of("00000000010000002a00000000000000"), "a message");
        count++;
    }
    require(count == 3, "three messages");
    Vector zeros;
    for (int i = 0; i < 100; i++) zeros.insert(zeros.end(), {0, 255});
    require(capnp_canonical::unpack(zeros, 25600) == Vector(8 * 25600), "a limit that is met");
    require_same("more words", answer([&] { return digits_of(capnp_canonical::unpack(zeros, 25599)); }), "MessageTooLong");
    Vector buffer;
    Bytes first = capnp_canonical::unpack_into(buffer, zeros);
    require(first.size() == 204800 && buffer.size() == 204800, "a buffer that grows");
    Bytes second = capnp_canonical::unpack_into(buffer, Bytes(zeros.data(), 2));
    require(second.size() == 2048 && buffer.size() == 2048 && buffer.capacity() >= 204800, "a buffer that is kept");
    require(second.data() == buffer.data(), "the front of the buffer");
}

void test_errors() {
    try {
        unused(capnp_canonical::copy(Bytes()));
        require(false, "no refusal");
    } catch (const Error& error) {
        require(error.number() == CAPNP_CANONICAL_NO_MESSAGE, "another number");
        require_same("what", error.what(), "NoMessage: there are no bytes where a frame was expected");
        require_same("name", error.name(), "NoMessage");
    }
    require_same("a number without a name", Error(1000000).name(), "");
    auto refused = [](const char* digits) { return what([&] { unused(capnp_canonical::copy(bytes_of(digits))); }); };
    const std::string many = "TooManySegments: the frame has more than 512 segments; they look like ";
    require_same("gzip", refused("1f8b080000000000000348"), many + "gzip");
    require_same("text", refused("2869642031290a20"), many + "text");
    // by capnp convert binary:packed
    require_same("packed", refused("10021001012a00000000"), many + "packed messages");
    require_same("words", refused("fcffffff00000000"), many + "raw canonical words");
    require_same("no room", Error(CAPNP_CANONICAL_NO_ROOM, {}, 24).what(),
                 "NoRoom: the buffer is too small, and 24 bytes are wanted");
}

// Two pointers to one text of 16 bytes: each has an entry. A broken pointer ends the list.
void test_walk() {
    Vector frame = bytes_of("000000000500000000000000000002000500000082000000010000008200000061626364656667686162636465666700");
    auto told = [](const capnp_canonical::Walk& walk) {
        std::string text = std::to_string(walk.count);
        for (const auto& it : walk.objects) {
            text += " " + std::to_string(it.kind) + ":" + std::to_string(it.pointer_word) + ":" + std::to_string(it.word);
            text += ":" + std::to_string(it.count) + ":" + std::to_string(it.pointers);
            text += it.parent == CAPNP_CANONICAL_NO_PARENT ? "" : ":" + std::to_string(it.parent);
        }
        return text + (walk.refused ? std::string(" ") + walk.refused->name() + " at " + walk.refused->pointer()->text() : "");
    };
    const std::string all = "3 8:0:1:0:2 2:1:3:16:0:0 2:2:3:16:0:0";
    require_same("a frame", told(capnp_canonical::walk(frame, 100)), all);
    require_same("segments", told(capnp_canonical::walk(capnp_canonical::Segments{Bytes(frame.data() + 8, 40)}, 100)), all);
    require_same("words", told(capnp_canonical::words_walk(Bytes(frame.data() + 8, 40), 100)), all);
    require_same("one object", told(capnp_canonical::walk(frame, 1)), "3 8:0:1:0:2");
    frame[24] = 0x41;
    require_same("a broken pointer", told(capnp_canonical::walk(frame, 100)),
                 "2 8:0:1:0:2 2:1:3:16:0:0 MessageContainsOutOfBoundsPointer at segment 0, word 2");
    frame.resize(20);
    require_same("no frame", what([&] { unused(capnp_canonical::walk(frame, 100)); }).substr(0, 9), "Truncated");
}

// The rows of prefixes.txt.
void test_prefixes(const char* path) {
    std::ifstream file(path);
    const Vector empty = bytes_of("0000000001000000fcffffff00000000");
    int count = 0;
    for (std::string line; std::getline(file, line);) {
        if (line.empty() || line[0] == '#') continue;
        std::string name, digits, steps, before, digest, packed;
        std::istringstream(line) >> name >> digits >> steps >> before >> digest >> packed;
        const Vector frame = bytes_of(digits), prefix = bytes_of(before == "-" ? "" : before);
        std::vector<std::uint32_t> path_of;
        if (steps != "-") {
            std::istringstream numbers(steps);
            for (std::string number; std::getline(numbers, number, '.');) path_of.push_back(static_cast<std::uint32_t>(std::stoul(number)));
        }
        const capnp_canonical::Path it(path_of);
        require_same(name, digits_of(capnp_canonical::digest_with_at(prefix, frame, it)), digest);
        const Vector words = capnp_canonical::copy_flat_at(frame, it);
        require_same(name, digits_of(capnp_canonical::words_digest_with(prefix, words)), digest);
        require_same(name, digits_of(capnp_canonical::words_digest_with_at(prefix, words, {})), digest);
        if (path_of.empty()) require_same(name, digits_of(capnp_canonical::digest_with(prefix, frame)), digest);
        if (packed != "-") require_same(name, digits_of(capnp_canonical::pack(frame)), packed);
        require(capnp_canonical::unpack(capnp_canonical::pack(frame)) == frame, "another frame");
        require(capnp_canonical::equal(frame, capnp_canonical::copy(frame)), "a copy isn't equal");
        require(capnp_canonical::words_equal(words, words), "words aren't equal");
        require(capnp_canonical::equal(frame, empty) == (capnp_canonical::copy(frame) == empty), "another message is equal");
        require_same("the first that is refused", answer([&] { return capnp_canonical::equal(Bytes(frame.data(), 4), frame) ? "yes" : "no"; }), "Truncated");
        count++;
    }
    require(count == 26, std::to_string(count) + " rows");
    require_same("a part of a word", answer([&] { return digits_of(capnp_canonical::pack(Bytes(empty.data(), 7))); }), "SegmentIsNotWholeWords");
}

int main(int count, char** words) {
    if (count != 7) return 2;
    test_messages(words[1]);
    test("packed bytes", [&] { test_packed(words[2]); });
    test("packed messages", test_unpacked);
    test("prefixes, and packed and equal frames", [&] { test_prefixes(words[6]); });
    test("ranges of bytes", test_ranges);
    test("segments", test_segments);
    test("copies that are longer than their message", test_longer_copies);
    test("limits", test_limits);
    test("raw words beside a frame", test_hazard);
    test("a buffer that is used again", test_buffer);
    test("a buffer after a refusal", test_refused_buffer);
    test("overlap", test_overlap);
    test("what is no validation", test_validation);
    test("temporaries", test_temporaries);
    test("bytes behind a frame", test_bytes_behind);
    test("faults", test_faults);
    test("frames of a stream", test_frames);
    test("frames of a reader", test_frame_reader);
    test("frames of a packed reader", [&] { test_packed_frame_reader(words[4]); });
    test("parts of messages", [&] { test_parts(words[3]); });
    test("places of broken pointers", [&] { test_places(words[5]); });
    test("objects of messages", test_walk);
    test("errors", test_errors);
    test("version", [] {
        require(capnp_canonical::version() == CAPNP_CANONICAL_VERSION, "another than the header's");
        capnp_canonical::require_version();
    });
    return failed ? 1 : 0;
}
