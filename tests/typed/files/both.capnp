@0xd1e2f3a4b5c6d743;
# Imports two files that declare the same name.
using B = import "b.capnp";
using C = import "c.capnp";
struct Both { b @0 :B.Shape; c @1 :C.Shape; d @2 :B.OnlyB; e @3 :List(C.OnlyC); f @4 :List(List(C.Shape)); }
const ofC :C.Shape = (y = "c");
