@0xc0ffee1234567891;
# A hospital's records: generics in generics, unions in groups in unions, names that are words of languages.

const maxWards :UInt16 = 0x7fff;
const pi :Float64 = 3.25;
const greeting :Text = "Grüß Gott";
const raw :Data = 0x"00 ff 7f";
const primes :List(UInt32) = [2, 3, 5, 7];
const titleDefault :Text = "unknown";
const codesDefault :List(Ward) = [icu, er];
const flagsDefault :List(Bool) = [true, false, true];
const remedyDefault :Patient.Drug = (name = "aspirin", every = 6, drip = (rate = 1.5, bags = ["a", "bc"]));
const builderDefault :Data = "xyz";
const somebody :Patient = (title = "nobody", ward = (number = 7), state = (admitted = (day = 3, bed = "b")));

annotation colour @0xd0ffee1234567892 (struct, field) :Text;

enum Ward { er @0; icu @1; surgery @2; maternity @3; self @4; type @5; }

struct Box(T) {
  value @0 :T;
  next @1 :Box(T);
  struct Inner(U) {
    left @0 :T;
    right @1 :U;
    both @2 :List(Pair(T, U));
  }
  inner @2 :Inner(Text);
}

struct Pair(A, B) {
  first @0 :A;
  second @1 :B;
}

struct Patient $colour("red") {
  struct Drug {
    name @0 :Text;
    milligrams @1 :Float32 = 2.5;
    every @2 :UInt8 = 24;
    codes @3 :List(Ward) = .codesDefault;
    union { oral @4 :Void; injected @5 :Injection; drip :group { rate @6 :Float64; bags @7 :List(Data); } }
    struct Injection { site @0 :Text; needle @1 :Int16 = -7; }
  }
  title @0 :Text = .titleDefault;
  ward :group {
    number @1 :UInt16 = 12;
    kind @2 :Ward = surgery;
    union {
      bed @3 :UInt8;
      corridor @4 :Void;
      private :group { butler @5 :Text; stars @6 :Int8 = -1; }
    }
  }
  state :union {
    new @7 :Void;
    admitted :group { day @8 :UInt32; bed @9 :Text; drugs @10 :List(Drug); }
    discharged @11 :Patient;
    dead @12 :List(List(Text));
  }
  history @13 :List(List(List(Int64)));
  flags @14 :List(Bool) = .flagsDefault;
  any @15 :AnyPointer;
  anyStruct @16 :AnyStruct;
  anyList @17 :AnyList;
  doctor @18 :Doctor;
  doctors @19 :List(Doctor);
  boxed @20 :Box(Patient);
  boxedText @21 :Box(Text);
  pairs @22 :List(Pair(Text, List(Drug)));
  nested @23 :Box(Data).Inner(List(UInt16));
  voids @24 :List(Void);
  remedy @25 :Drug = .remedyDefault;
  bools :group { a @26 :Bool = true; b @27 :Bool; c @28 :Bool = true; }
  floats @29 :List(Float32);
  list @30 :UInt64 = 18446744073709551615;
  lowest @31 :Int32 = -2147483648;
  builder @32 :Data = .builderDefault;
  reader @33 :List(Pair(AnyPointer, AnyPointer));
  match @34 :Text;
  union { int @35 :Int8; fn @36 :Text; impl @37 :Data; struct @38 :Drug; namespace @39 :Doctor; template @40 :List(Ward); }
}

interface Doctor {
  treat @0 (patient :Patient, box :Box(Doctor)) -> (bill :UInt64 = 100, drugs :List(Patient.Drug));
  generic @1 [T] (it :T) -> (it :T);
}

interface Chief extends(Doctor) {
  rule @0 ();
}

struct Registry {
  all @0 :List(Patient);
  chiefs @1 :List(Chief);
  byWard @2 :List(List(Patient));
  index @3 :Box(List(Patient));
  union { none @4 :Void; one @5 :Patient; many @6 :List(Registry); }
}
