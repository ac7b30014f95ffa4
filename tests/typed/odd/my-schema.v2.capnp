@0xd0d1d2d3d4d5d606;
# A file's name with more than letters.
struct Thing { y @0 :UInt8; }
