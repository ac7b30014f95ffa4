@0xd2c5a9f0b1e37784;
# Names by annotations of capnp_layout_c.capnp: of each kind of declaration, and some that have no effect.
using C = import "/capnp_layout_c.capnp";
using Other = import "prefixed.capnp";
$C.prefix("shop_");

const limit :UInt16 = 12 $C.name("most");

enum Colour $C.name("Paint") { red @0; green @1 $C.name("grass"); blue @2 $C.name("red"); }

struct Order $C.name("Purchase") {
  id @0 :UInt32;
  class @1 :Text $C.name("category");
  colour @2 :Colour;
  buyer @3 :Other.Order;
  job :union $C.name("work") {
    none @4 :Void $C.name("nothing");
    payment :group $C.name("paid") { amount @5 :UInt32 $C.name("sum"); }
    parts @6 :List(Part) $C.name("get");
  }
  struct Part { name @0 :Text $C.name("full_name"); size @1 :UInt8 $C.name("Size"); weight @2 :UInt8 $C.name("size"); }
}
