@0xd0d1d2d3d4d5d605;
# An enum without names.
enum Nothing {}
struct HasNothing { e @0 :Nothing; f @1 :List(Nothing); g @2 :UInt8; union { h @3 :Nothing; i @4 :Void; } }
