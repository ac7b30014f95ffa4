@0xd1e2f3a4b5c6d715;
# The same name as sub/mod.capnp.
struct Other { x @0 :UInt8; o @1 :List(Other); }
