// Signs a part of a message in C++: makes a `Signed` of signed.capnp with the C++ library of Cap'n Proto, computes HMAC-SHA256 over
// the canonical words of its payload, stores it in the message, and writes the message to standard output as a frame of several
// segments.
//
//     sign KEY >FILE
#include "capnp_canonical_capnp.hpp"
#include "signed.capnp.h"
#include <capnp/message.h>
#include <capnp/serialize.h>
#include <cstdio>
#include <cstring>
#include <openssl/hmac.h>

namespace {

// The words of the frame are those that a reader of the signature has, too.
std::vector<std::uint8_t> payload_of(capnp::MessageBuilder& message) {
    auto frame = capnp::messageToFlatArray(message);
    auto bytes = frame.asBytes();
    return capnp_canonical::copy_flat_at(capnp_canonical::Bytes(bytes.begin(), bytes.size()), {0});
}

}

int main(int count, char** arguments) {
    if (count != 2) return 2;
    // segments of a few words, so that pointers lead from one to another
    capnp::MallocMessageBuilder message(4, capnp::AllocationStrategy::FIXED_SIZE);
    auto root = message.initRoot<Signed>();
    root.setNumber(5);
    auto payload = root.initPayload();
    payload.setName("Ada");
    payload.setAge(36);
    payload.initFriend().setName("Eve");
    auto words = payload_of(message);
    unsigned char signature[EVP_MAX_MD_SIZE];
    unsigned size = 0;
    if (!HMAC(EVP_sha256(), arguments[1], int(std::strlen(arguments[1])), words.data(), words.size(), signature, &size)) return 1;
    root.setSignature(kj::arrayPtr(signature, size));
    auto frame = capnp::messageToFlatArray(message);
    auto bytes = frame.asBytes();
    return std::fwrite(bytes.begin(), 1, bytes.size(), stdout) == bytes.size() ? 0 : 1;
}
