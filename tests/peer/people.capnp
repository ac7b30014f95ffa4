@0xd5f2a1c07b3e9964;

struct Date { year @0 :Int16; month @1 :UInt8; day @2 :UInt8; }

struct Phone { number @0 :Text; kind @1 :UInt16; }

struct Person {
  id @0 :UInt64;
  name @1 :Text;
  email @2 :Text;
  phones @3 :List(Phone);
  birth @4 :Date;
  scores @5 :List(List(Float64));
  flags @6 :List(Bool);
  blob @7 :Data;
  friends @8 :List(Person);
  ages @9 :List(UInt8);
  voids @10 :List(Void);
  union { nothing @11 :Void; note @12 :Text; number @13 :Int32; }
  height @14 :Float32;
}

struct Book { people @0 :List(Person); title @1 :Text; }
