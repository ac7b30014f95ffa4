// Tests of capnp_canonical.hpp in a program without exceptions and without types at run time.
//
//     plain         a line `ok: NAME` or `FAILED: NAME` for each test
//     plain STOP    makes a call that would throw an exception
#include "capnp_canonical.hpp"

#include <cstdint>
#include <cstdio>
#include <cstring>

#ifdef __cpp_exceptions
#error "this is for -fno-exceptions"
#endif

static bool failed = false;

static void report(bool holds, const char* name) {
    std::printf("%s: %s\n", holds ? "ok" : "FAILED", name);
    failed = failed || !holds;
}

int main(int count, char**) {
    using namespace capnp_canonical;
    // a struct of one word, and of one that isn't there
    const std::uint8_t frame[] = {0, 0, 0, 0, 2, 0, 0, 0, 0, 0, 0, 0, 1, 0, 0, 0, 42, 0, 0, 0, 0, 0, 0, 0};
    const std::uint8_t broken[] = {0, 0, 0, 0, 1, 0, 0, 0, 0, 0, 0, 0, 1, 0, 0, 0};
    if (count > 1) return digest(broken)[0];
    const Result<Words> words = try_canonical_words(frame);
    report(words && words->size() == 16 && std::memcmp(words->data(), frame + 8, 16) == 0, "words without exceptions");
    const Result<Digest> refused = try_digest(broken);
    report(!refused && refused.error().sort() == Class::malformed && refused.error().pointer() == Pointer{0, 0}, "a refusal without exceptions");
    std::size_t at = 0;
    FrameReader frames([&](std::uint8_t* to, std::size_t size) {
        const std::size_t came = size < sizeof frame - at ? size : sizeof frame - at;
        std::memcpy(to, frame + at, came);
        at += came;
        return came;
    });
    const auto first = frames.try_next(), second = frames.try_next();
    report(first && *first && (*first)->size() == sizeof frame && second && !*second, "a reader without exceptions");
    return failed ? 1 : 0;
}
