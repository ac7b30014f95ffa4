# Envelopes whose parts parts.py copies.
@0xbf5147cbbecf40c1;

struct Person {
  name @0 :Text;
  age @1 :UInt32;
  friend @2 :Person;
}

struct Signed {
  payload @0 :Person;
  signature @1 :Data;
  people @2 :List(Person);
  names @3 :List(Text);
  number @4 :UInt32;
}

# Structs whose one pointer leads to a list.
struct OfText { it @0 :Text; }
struct OfData { it @0 :Data; }
struct OfPeople { it @0 :List(Person); }
struct OfNames { it @0 :List(Text); }
