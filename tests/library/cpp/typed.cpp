// Tests of what capnp_canonical.hpp has for programs that are typed strictly: raw words with a type of their own, calls that
// return a Result, enumerators, comparisons, keys of hash maps, iterators, and calls that take no memory. A line `ok: NAME` or
// `FAILED: NAME: WHAT` for each test.
#include "capnp_canonical.hpp"

#include <algorithm>
#include <cstdio>
#include <cstdlib>
#include <functional>
#include <iterator>
#include <new>
#include <stdexcept>
#include <string>
#include <type_traits>
#include <unordered_map>
#include <unordered_set>
#include <vector>

using namespace capnp_canonical;
using Vector = std::vector<std::uint8_t>;

static std::size_t allocations;

// Not inlined, because gcc warns of free for what operator new returns.
__attribute__((noinline)) void* operator new(std::size_t size) {
    allocations++;
    if (size > (std::size_t(1) << 32)) throw std::bad_alloc();
    void* memory = std::malloc(size ? size : 1);
    if (!memory) throw std::bad_alloc();
    return memory;
}
__attribute__((noinline)) void operator delete(void* memory) noexcept { std::free(memory); }
__attribute__((noinline)) void operator delete(void* memory, std::size_t) noexcept { std::free(memory); }

static bool failed = false;

static void test(const char* name, const std::function<void()>& body) {
    try {
        body();
        std::printf("ok: %s\n", name);
    } catch (const std::exception& error) {
        std::printf("FAILED: %s: %s\n", name, error.what());
        failed = true;
    }
}

static void require(bool holds, const char* what) {
    if (!holds) throw std::logic_error(what);
}

static Vector bytes_of(const std::string& digits) {
    Vector bytes;
    for (std::size_t at = 0; at < digits.size(); at += 2) bytes.push_back(std::uint8_t(std::stoi(digits.substr(at, 2), nullptr, 16)));
    return bytes;
}

// A struct of three words, the last zero; its canonical words; and these as a frame, by C++ Cap'n Proto.
static const Vector ZERO_WORD = bytes_of("000000000400000000000000030000001111111111111111ffffffffffffffff0000000000000000");
static const Vector FLAT = bytes_of("00000000020000001111111111111111ffffffffffffffff");
static const Vector FRAMED = bytes_of("000000000300000000000000020000001111111111111111ffffffffffffffff");
// The root is a struct of one word that isn't there.
static const Vector OUTSIDE = bytes_of("00000000010000000000000001000000");

// Raw words aren't bytes of a frame; bytes may be passed as raw words.
static_assert(!std::is_constructible_v<Bytes, Words> && !std::is_convertible_v<Words, Bytes>);
static_assert(!std::is_constructible_v<Bytes, WordsView> && !std::is_constructible_v<Segments, Words>);
static_assert(std::is_convertible_v<Words, WordsView> && std::is_convertible_v<Bytes, WordsView> && std::is_convertible_v<Vector, WordsView>);
static_assert(std::is_constructible_v<Words, Vector> && !std::is_convertible_v<Vector, Words>);
template <typename Message, typename = void>
constexpr bool is_frame = false;
template <typename Message>
constexpr bool is_frame<Message, std::void_t<decltype(capnp_canonical::digest(std::declval<Message>()))>> = true;
static_assert(is_frame<Vector> && is_frame<Bytes> && is_frame<Segments> && !is_frame<Words> && !is_frame<WordsView>);

static void test_words() {
    const Words words = canonical_words(ZERO_WORD);
    require(Vector(words.begin(), words.end()) == FLAT && words.size() == FLAT.size(), "canonical words");
    require(words == Words(FLAT) && words != Words() && Words() < words, "comparisons");
    require(words_is_canonical(words) && words_check(words).is_canonical(), "a check of words");
    require(words_digest(words) == digest(ZERO_WORD) && words_copy(words) == FLAT, "a digest and a copy of words");
    require(words_size(words) == Size{2, 0} && words_validate(words).depth == 1 && words_walk(words, 9).count == 1, "measures of words");
    require(canonical_words(Segments{Bytes(ZERO_WORD.data() + 8, 32)}) == words && canonical_words_at(ZERO_WORD, {}) == words, "of segments and parts");
    require(digest(Segments{words.bytes()}) == digest(ZERO_WORD), "words as a segment");
    Words kept = words;
    require(std::move(kept).release() == FLAT, "the bytes of words");
    const std::vector<Bytes> segments = {Bytes(ZERO_WORD.data() + 8, 32)};
    require(canonical_words(segments) == words, "a range of segments");
}

// Argument-dependent lookup for the types doesn't find the calls.
static void test_lookup() {
    using std::size;
    static_assert(std::is_same_v<decltype(size(Bytes())), std::size_t>);
    require(size(Bytes(ZERO_WORD)) == ZERO_WORD.size(), "std::size of Bytes");
}

static void test_results() {
    const Result<Words> words = try_canonical_words(ZERO_WORD);
    require(words && words.has_value() && *words == Words(FLAT) && words->size() == 24, "a value");
    const Result<Words> none = try_canonical_words(OUTSIDE);
    require(!none && none.error().code() == Code::message_contains_out_of_bounds_pointer && none.error().sort() == Class::malformed, "a refusal");
    require(none.error().pointer() == Pointer{0, 0}, "the place of the pointer");
    require(none.error().text() == "MessageContainsOutOfBoundsPointer at segment 0, word 0: a pointer points outside its segment", "its text");
    try {
        static_cast<void>(try_digest(OUTSIDE).value());
        require(false, "no exception");
    } catch (const Error& error) {
        require(error.code() == none.error().code() && error.what() == none.error().text(), "the same as an exception");
    }
    static_assert(!std::is_constructible_v<bool, Result<Checked>> && std::is_constructible_v<bool, Result<Size>>);
    require(try_check(ZERO_WORD).has_value() && (*try_check(ZERO_WORD)).fault().code() == Reason::data_section, "a check");
    require(try_check(ZERO_WORD)->fault() == Fault{9, 0, 3} && try_check(ZERO_WORD)->fault().place() == Pointer{0, 3}, "a fault");
    Vector buffer = FLAT;
    require(!try_copy_into(buffer, OUTSIDE) && buffer.empty(), "a buffer after a refusal");
    require(try_copy_flat_into(buffer, ZERO_WORD) && buffer == FLAT, "a buffer");
    require(!try_unpack(bytes_of("00")) && try_unpack(bytes_of("10021001012a")).has_value(), "packed bytes");
    require(!try_unpack_into(buffer, bytes_of("00")) && buffer.empty() && try_unpack_into(buffer, bytes_of("10021001012a")), "packed bytes into a buffer");
    require(try_frame_size(ZERO_WORD) && *try_frame_size(ZERO_WORD) == 40 && !try_frame_size(Bytes()), "the size of a frame");
    require(!try_validate(OUTSIDE) && !try_size(OUTSIDE) && !try_copy(OUTSIDE) && !try_copy_flat(OUTSIDE), "refusals");
    require(!try_copy_flat_at(ZERO_WORD, {7}) && try_digest_at(ZERO_WORD, {7}).error().sort() == Class::path, "a path");
    require(try_words_digest(FLAT) && !try_words_copy(Bytes(FLAT.data(), 7)), "raw words");
    require(try_walk(OUTSIDE, 9)->refused->pointer() == Pointer{0, 0} && !try_walk(Bytes(), 9), "objects");
}

static void test_values() {
    require(Limits{} == Limits{64, 8388608} && Limits{1, 2} != Limits{2, 1}, "limits");
    require(Place{1, 2} == Place{1, 2} && Place{1, 2} != Place{}, "places");
    require(Pointer{0, 9} < Pointer{1, 0} && Pointer{1, 0} < Pointer{1, 1} && !(Pointer{1, 1} < Pointer{1, 1}), "the order of pointers");
    require(validate(ZERO_WORD) == validate(ZERO_WORD) && validate(ZERO_WORD) != validate(FRAMED), "extents");
    const Walk found = walk(ZERO_WORD, 9);
    require(kind_of(found.objects[0]) == Kind::structure && !parent_of(found.objects[0]), "kinds and parents");
    require(Refusal(1000000).sort() == Class::other && Refusal(CAPNP_CANONICAL_NO_ROOM).code() == Code::no_room, "codes");
}

// A message is found by its value: equal values in other words, and refused messages by their bytes.
static void test_hashes() {
    std::unordered_map<Vector, int, ValueHash, ValueEqual> values;
    values[ZERO_WORD] = 1;
    values[OUTSIDE] = 2;
    require(values.count(FRAMED) == 1 && values[FRAMED] == 1 && values[OUTSIDE] == 2 && values.size() == 2, "values");
    require(values.count(Vector(OUTSIDE.begin(), OUTSIDE.end() - 8)) == 0 && !ValueEqual()(ZERO_WORD, OUTSIDE), "others");
    std::unordered_set<Digest, DigestHash> digests = {digest(ZERO_WORD), digest(FRAMED)};
    require(digests.size() == 1 && digests.count(words_digest(FLAT)) == 1, "digests");
}

#if defined(__cpp_lib_concepts) && defined(__cpp_concepts)
static_assert(std::forward_iterator<Frames::Iterator> && std::contiguous_iterator<decltype(Bytes().begin())>);
#endif

static void test_iterators() {
    Vector stream = ZERO_WORD;
    stream.insert(stream.end(), FRAMED.begin(), FRAMED.end());
    const Frames frames(stream);
    auto at = frames.begin(), first = at++;
    require(first->size() == 40 && at->size() == 32 && at->place().byte == 40 && (*first).size() == 40, "-> and a step");
    require(std::distance(frames.begin(), frames.end()) == 2, "a distance");
    require(std::count_if(frames.begin(), frames.end(), [](Bytes it) { return is_canonical(it); }) == 1, "an algorithm");
    static_assert(std::is_same_v<std::iterator_traits<Frames::Iterator>::reference, Bytes>);
}

// Calls for raw words take no memory, nor do those that return a Result or a small one.
static void test_memory() {
    const std::size_t before = allocations;
    const Size measured = words_size(FLAT);
    const bool sound = words_is_canonical(FLAT) && words_check(FLAT).is_canonical() && words_validate(FLAT).depth == 1;
    const Digest hashed = words_digest(FLAT), part = words_digest_at(FLAT, {});
    const bool refused = !try_digest(OUTSIDE) && !try_check(Bytes()).has_value();
    const std::size_t after = allocations;
    require(sound && refused && measured.words == 2 && hashed == part, "the answers");
    require(after == before, "memory is taken");
    const std::size_t room = allocations;
    const Vector copied = copy_flat(ZERO_WORD);
    require(copied == FLAT && allocations == room + 1, "memory is taken more than once for a copy");
    const Words words = canonical_words(ZERO_WORD);
    require(words.size() == 24 && allocations == room + 2, "memory is taken more than once for words");
    require(walk(ZERO_WORD, std::size_t(1) << 40).count == 1, "a list of at most 2^40 objects");
    // a struct of 33 pointers to empty structs
    Vector many = bytes_of("00000000220000000000000000002100");
    for (int i = 0; i < 33; i++) many.insert(many.end(), {0xfc, 0xff, 0xff, 0xff, 0, 0, 0, 0});
    const Walk all = walk(many, std::size_t(1) << 40), few = walk(many, 20), more = walk(many, 33);
    require(all.count == 34 && all.objects.size() == 34 && parent_of(all.objects[33]) == 0, "a list of 34 objects");
    require(few.count == 34 && few.objects.size() == 20 && more.objects.size() == 33 && more.count == 34, "a part of it");
}

// A function for reading that says that more came than there was room for; and a reader after a refusal or an exception.
template <template <typename> class Reader>
static void test_reader() {
    auto lies = [](std::uint8_t*, std::size_t size) { return size + 1; };
    Reader<decltype(lies)> wrong(lies);
    bool thrown = false;
    try {
        wrong.next();
    } catch (const std::length_error&) {
        thrown = true;
    }
    require(thrown && !wrong.next(), "a wrong number of bytes");
    // eight bytes of no segment table, and packed ones
    auto text = [](std::uint8_t* to, std::size_t size) { return std::fill_n(to, std::min<std::size_t>(size, 8), std::uint8_t(0xff)), std::min<std::size_t>(size, 8); };
    Reader<decltype(text)> refused(text);
    const auto first = refused.try_next();
    require(!first && first.error().sort() == Class::limit && first.error().place() == Place{1, 0}, "a refusal");
    const auto second = refused.try_next();
    require(second && !*second, "nothing after a refusal");
}

int main() {
    test("words with a type of their own", test_words);
    test("argument-dependent lookup", test_lookup);
    test("results", test_results);
    test("enumerators and comparisons", test_values);
    test("keys of hash maps", test_hashes);
    test("iterators", test_iterators);
    test("calls that take no memory", test_memory);
    test("a reader of frames", test_reader<FrameReader>);
    test("a reader of packed frames", test_reader<PackedFrameReader>);
    return failed ? 1 : 0;
}
