@0xd0c1f2a3b4e59687;

struct Person {
  id @0 :UInt32;
  name @1 :Text;
  phones @2 :List(Phone);

  struct Phone {
    number @0 :Text;
    kind @1 :UInt16;
  }
}
