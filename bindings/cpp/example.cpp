// Reads framed messages from standard input, and writes the canonical words of each to standard output.
#include "capnp_canonical.hpp"
#include <iostream>
#include <iterator>
#include <string>

int main() {
    std::string stream(std::istreambuf_iterator<char>(std::cin), {});
    try {
        for (capnp_canonical::Bytes frame : capnp_canonical::Frames(stream)) {
            auto words = capnp_canonical::copy_flat(frame);
            std::cout.write(reinterpret_cast<const char*>(words.data()), std::streamsize(words.size()));
        }
    } catch (const capnp_canonical::Error& error) {
        std::cerr << "refused " << error.name() << '\n';
        return 2;
    }
    return std::cout.flush() ? 0 : 2;
}
