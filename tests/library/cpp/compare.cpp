// Compares the calls on a capnp::MessageReader with Cap'n Proto's own, message by message, in one process.
//
//     compare STREAM         the framed people of a file, also with their objects in many segments; and the ratios of the
//                            processor times of copy_flat, and of copy_flat_into, to that of capnp::canonicalize
//     compare write STREAM   writes the canonical words of all of them, to be hashed
#define CAPNP_CANONICAL_WITH_CAPNP
#include "capnp_canonical.hpp"
#include "people.capnp.h"
#include <capnp/any.h>
#include <capnp/message.h>
#include <capnp/serialize.h>
#include <algorithm>
#include <cstdio>
#include <cstring>
#include <ctime>
#include <fstream>
#include <memory>
#include <string>
#include <vector>

constexpr double WANTED = 0.6;
constexpr int ROUNDS = 7;

using Readers = std::vector<std::unique_ptr<capnp::FlatArrayMessageReader>>;

std::vector<capnp::word> words_of(const char* path) {
    std::ifstream file(path, std::ios::binary | std::ios::ate);
    std::vector<capnp::word> words(size_t(file.tellg()) / sizeof(capnp::word));
    file.seekg(0).read(reinterpret_cast<char*>(words.data()), words.size() * sizeof(capnp::word));
    return words;
}

Readers readers_of(const std::vector<capnp::word>& words) {
    Readers readers;
    for (const capnp::word* at = words.data(); at != words.data() + words.size(); at = readers.back()->getEnd()) {
        auto rest = kj::arrayPtr(at, words.data() + words.size() - at);
        readers.push_back(std::make_unique<capnp::FlatArrayMessageReader>(rest));
    }
    return readers;
}

double seconds() {
    timespec time;
    clock_gettime(CLOCK_PROCESS_CPUTIME_ID, &time);
    return double(time.tv_sec) + double(time.tv_nsec) * 1e-9;
}

// The seconds that a task takes for all messages, and how many bytes it gives.
template <typename Task>
double timed(const Readers& readers, size_t& bytes, Task task) {
    double start = seconds();
    for (const auto& reader : readers) bytes += task(*reader);
    return seconds() - start;
}

template <typename Words>
bool is_same(const std::vector<std::uint8_t>& ours, std::size_t table, const Words& theirs) {
    auto bytes = theirs.asBytes();
    return ours.size() == table + bytes.size() && memcmp(ours.data() + table, bytes.begin(), bytes.size()) == 0;
}

bool answers_the_same(capnp::MessageReader& message) {
    auto words = capnp::canonicalize(message.getRoot<Person>());
    auto size = message.getRoot<capnp::AnyPointer>().targetSize();
    auto ours = capnp_canonical::size(message);
    return is_same(capnp_canonical::copy_flat(message), 0, words) && is_same(capnp_canonical::copy(message), 8, words) &&
           capnp_canonical::check(message).is_canonical() == message.isCanonical() && ours.words == size.wordCount &&
           ours.capabilities == size.capCount;
}

// The same message with each object in a segment of its own.
bool answers_the_same_scattered(capnp::MessageReader& message) {
    capnp::MallocMessageBuilder builder(1, capnp::AllocationStrategy::FIXED_SIZE);
    builder.setRoot(message.getRoot<Person>());
    auto segments = builder.getSegmentsForOutput();
    capnp::SegmentArrayMessageReader scattered(segments);
    auto flat = capnp_canonical::copy_flat(capnp_canonical::segments_of(segments));
    return answers_the_same(scattered) && is_same(flat, 0, capnp::canonicalize(message.getRoot<Person>()));
}

bool report(bool holds, const char* what, int of, size_t count) {
    printf("%s: %s: %zu messages, %d differ\n", holds ? "ok" : "FAILED", what, count, of);
    return holds;
}

bool compare_answers(const std::vector<capnp::word>& words) {
    auto readers = readers_of(words);
    int different = 0, scattered = 0;
    for (const auto& reader : readers) {
        different += !answers_the_same(*reader);
        scattered += !answers_the_same_scattered(*reader);
    }
    bool whole = report(different == 0 && !readers.empty(), "MessageReader beside Cap'n Proto", different, readers.size());
    return report(scattered == 0, "MessageReader of many segments", scattered, readers.size()) && whole;
}

bool compare_times(const std::vector<capnp::word>& words) {
    double fresh = 1e9, reused = 1e9, theirs = 1e9;
    size_t fresh_bytes = 0, reused_bytes = 0, their_bytes = 0;
    std::vector<std::uint8_t> buffer;
    for (int round = 0; round < ROUNDS; round++) {
        // readers of its own for each way: the first call makes a reader's arena
        fresh = std::min(fresh, timed(readers_of(words), fresh_bytes, [](capnp::MessageReader& reader) {
            return capnp_canonical::copy_flat(reader).size();
        }));
        reused = std::min(reused, timed(readers_of(words), reused_bytes, [&](capnp::MessageReader& reader) {
            return capnp_canonical::copy_flat_into(buffer, reader).size();
        }));
        theirs = std::min(theirs, timed(readers_of(words), their_bytes, [](capnp::MessageReader& reader) {
            return capnp::canonicalize(reader.getRoot<Person>()).asBytes().size();
        }));
    }
    bool holds = fresh / theirs <= WANTED && fresh_bytes == their_bytes && reused_bytes == their_bytes;
    printf("%s: ratio of times %.2f, into a buffer that is used again %.2f, at most %.2f wanted (%.3f s, %.3f s, capnp::canonicalize %.3f s)\n",
           holds ? "ok" : "FAILED", fresh / theirs, reused / theirs, WANTED, fresh, reused, theirs);
    return holds;
}

int compare(const char* path) {
    auto words = words_of(path);
    bool same = compare_answers(words);
    return compare_times(words) && same ? 0 : 1;
}

int write(const char* path) {
    auto words = words_of(path);
    for (const auto& reader : readers_of(words)) {
        auto canonical = capnp_canonical::copy_flat(*reader);
        fwrite(canonical.data(), 1, canonical.size(), stdout);
    }
    return fflush(stdout) == 0 ? 0 : 1;
}

int main(int count, char** words) {
    if (count == 2) return compare(words[1]);
    if (count == 3 && words[1] == std::string("write")) return write(words[2]);
    return 2;
}
