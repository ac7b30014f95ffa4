@0xb6f5f0d4d9a3c1eb;
struct Thing { id @0 :UInt32; kind @1 :Kind; enum Kind { a @0; } }
