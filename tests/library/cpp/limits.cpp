// The headers for C in a program in C++.
#include "capnp_canonical_limits.h"

int main() { return capnp_canonical_check_within(nullptr, 0, nullptr, nullptr, nullptr) == CAPNP_CANONICAL_NO_MESSAGE ? 0 : 1; }
