@0xb8c2a1f3d4e59611;
# Names that plain values have, and fields that have none.

const table :UInt32 = 5;
const names :Text = "x";

struct Value {
  value @0 :UInt32;
  inner @1 :Value;
  which @2 :WhichValue;
  list @3 :List(Value);
  readWhich @4 :Text;
  name @5 :Text;

  union {
    any @6 :AnyPointer;
    nothing @7 :Void;
    more @8 :List(Value);
    group :group {
      number @9 :UInt8;
      value @10 :Value;
    }
    table @11 :Text;
  }

  anyStruct @12 :AnyStruct;
  anyList @13 :AnyList;
  services @14 :List(Capability);
  service @15 :Capability;

  struct Value { into @0 :Text; from @1 :Value; }
  struct WhichValue { only @0 :Value; }
}

struct Empty {}

struct Voids {
  a @0 :Void;
  union {
    b @1 :Void;
    c @2 :Void;
  }
}

struct Generic(T) {
  it @0 :T;
  texts @1 :Generic(Text);
}

struct Pointers {
  a @0 :AnyPointer;
  either :union {
    x @1 :AnyPointer;
    y @2 :AnyPointer;
  }
}
