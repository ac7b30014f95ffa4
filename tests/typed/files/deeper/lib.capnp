@0xd1e2f3a4b5c6d714;
struct Leaf { x @0 :UInt8; }
struct Super { y @0 :Leaf; }
