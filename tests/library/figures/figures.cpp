// figures FILE CALL COUNT: the least time of a call in nanoseconds, of nine rounds with COUNT calls each. CALL is `words`, `digest`
// or `hash`, which hashes the canonical words by libcrypto.
#include <openssl/evp.h>

#include <capnp_canonical.hpp>
#include <chrono>
#include <cstdio>
#include <cstdlib>
#include <fstream>
#include <iterator>
#include <string>
#include <vector>

int main(int count, char** words) {
    if (count != 4) return 2;
    std::ifstream file(words[1], std::ios::binary);
    const std::vector<char> held{std::istreambuf_iterator<char>(file), {}};
    const std::vector<std::uint8_t> frame(held.begin(), held.end());
    const std::string call = words[2];
    const long calls = std::atol(words[3]);
    const auto canonical = capnp_canonical::copy_flat(frame);
    volatile unsigned seen = 0;
    double least = 1e300;
    for (int round = 0; round < 9; ++round) {
        const auto start = std::chrono::steady_clock::now();
        for (long i = 0; i < calls; ++i) {
            if (call == "words") {
                seen = seen + static_cast<unsigned>(capnp_canonical::copy_flat(frame).size());
            } else if (call == "digest") {
                seen = seen + capnp_canonical::digest(frame)[0];
            } else {
                unsigned char sum[32];
                EVP_Digest(canonical.data(), canonical.size(), sum, nullptr, EVP_sha256(), nullptr);
                seen = seen + sum[0];
            }
        }
        const std::chrono::duration<double, std::nano> taken = std::chrono::steady_clock::now() - start;
        least = std::min(least, taken.count() / static_cast<double>(calls));
    }
    std::printf("%.1f\n", least);
}
