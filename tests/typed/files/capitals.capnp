@0xd1e2f3a4b5c6d704;
# Names that macros and types of C have.
struct NULL { x @0 :UInt8; } struct EOF { x @0 :UInt8; } struct FILE { x @0 :UInt8; } struct INT8MAX { x @0 :UInt8; } struct I { x @0 :UInt8; } struct BUFSIZ { x @0 :UInt8; } struct SIZE { x @0 :UInt8; }
struct CapnpText { x @0 :UInt8; } struct CAPNP { x @0 :UInt8; } struct Capnp { x @0 :UInt8; }
struct UsesAll { a @0 :NULL; b @1 :List(EOF); c @2 :FILE; d @3 :List(List(SIZE)); e @4 :CAPNP; }
