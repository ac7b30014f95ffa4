@0xd1e2f3a4b5c6d744;
# Has a name of a file that is imported by one that this imports.
using M = import "middle.capnp";
struct Shape { a @0 :M.Middle; }
