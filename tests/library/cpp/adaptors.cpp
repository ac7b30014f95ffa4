// Uses each call of capnp_canonical_capnp.hpp once, so that the compiler looks at all of it.
#include "capnp_canonical_capnp.hpp"

#include <exception>

static int use() {
    capnp::MallocMessageBuilder message;
    message.initRoot<capnp::AnyPointer>().initAsAnyStruct(1, 0);
    const capnp_canonical::Words words = capnp_canonical::canonical_words(message);
    std::vector<std::uint8_t> buffer;
    static_cast<void>(capnp_canonical::copy_into(buffer, message));
    static_cast<void>(capnp_canonical::copy_flat_into(buffer, message));
    const auto array = capnp_canonical::canonicalize(message);
    auto room = kj::heapArray<capnp::word>(8);
    const bool same = capnp_canonical::copy_flat(message) == buffer && capnp_canonical::digest(message) == capnp_canonical::words_digest(words) &&
                      capnp_canonical::canonicalize_into(room, message).size() == array.size() &&
                      capnp_canonical::digest(capnp_canonical::copy(message)) == capnp_canonical::words_digest(array) &&
                      capnp_canonical::digest_with(buffer, message) == capnp_canonical::words_digest_with(buffer, words) &&
                      capnp_canonical::equal(message, message.getRoot<capnp::AnyPointer>());
    return same && capnp_canonical::check(message).is_canonical() != capnp_canonical::is_canonical(message) ? 1 : int(capnp_canonical::size(message).capabilities);
}

int main() {
    try {
        return use();
    } catch (const kj::Exception&) {
        return 2;
    } catch (const std::exception&) {
        return 3;
    }
}
