@0xc2b7e4a0d9f1385d;
# A field of each kind that a pointer can have, and unions that share pointers.

struct Kinds {
  text @0 :Text;
  data @1 :Data;
  next @2 :Kinds;
  any @3 :AnyPointer;
  texts @4 :List(Text);
  numbers @5 :List(UInt32);
  bits @6 :List(Bool);
  items @7 :List(Item);
  lists @8 :List(List(UInt16));
  union {
    name @9 :Text;
    item @10 :Item;
    inner :union {
      bytes @11 :Data;
      more @12 :List(Item);
    }
    nothing @13 :Void;
  }
}

struct Item {
  name @0 :Text;
  number @1 :UInt32;
}
