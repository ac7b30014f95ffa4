@0xb8c2a1f3d4e59607;

struct Order {
  id @0 :UInt32;
  customer @1 :Text;
}
