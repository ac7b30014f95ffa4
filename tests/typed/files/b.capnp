@0xd1e2f3a4b5c6d741;
struct Shape { y @0 :UInt8; }
struct OnlyB { t @0 :Shape; }
