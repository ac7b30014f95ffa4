@0xd1e2f3a4b5c6d745;
using B = import "b.capnp";
struct Middle { b @0 :B.Shape; }
