@0xb6f5f0d4d9a3c1e7;
# A field of each kind, with and without a default value, and names that are words of Rust or of the prover.

const filledDefault :Inner = (match = 5, where = "there", type = "of");
const countedDefault :List(UInt16) = [1, 2, 3];
const listedDefault :List(Inner) = [(match = 7), (where = "x")];
const namedDefault :List(Text) = ["a", "", "bcdefghij"];
const checkedDefault :List(Bool) = [true, false, true];
const sealedDefault :List(Data) = [0x"00 ff", "x"];
const tabledDefault :List(List(Int8)) = [[1, -2], [], [3]];

interface Service {}

enum Colour { red @0; green @1; self @2; type @3; }

struct Root {
  flag @0 :Bool;
  flagSet @1 :Bool = true;
  small @2 :Int8;
  short @3 :Int16 = -300;
  word @4 :Int32 = 77;
  long @5 :Int64 = -9223372036854775808;
  byte @6 :UInt8;
  byteSet @7 :UInt8 = 200;
  port @8 :UInt16 = 8080;
  id @9 :UInt32;
  key @10 :UInt64;
  ratio @11 :Float32 = 1.5;
  exact @12 :Float64;
  colour @13 :Colour;
  background @14 :Colour = green;
  name @15 :Text;
  greeting @16 :Text = "hello";
  blob @17 :Data;
  magic @18 :Data = 0x"00 ff 10 22";
  inner @19 :Inner;
  next @20 :Root;
  any @21 :AnyPointer;
  voids @22 :List(Void);
  flags @23 :List(Bool);
  bytes @24 :List(UInt8);
  shorts @25 :List(Int16);
  words @26 :List(UInt32);
  longs @27 :List(Int64);
  ratios @28 :List(Float64);
  colours @29 :List(Colour);
  names @30 :List(Text);
  blobs @31 :List(Data);
  inners @32 :List(Inner);
  rows @33 :List(List(UInt16));
  grid @34 :List(List(Inner));
  match @35 :UInt16;
  result @36 :UInt8;
  data @37 :UInt8;
  record @38 :UInt8;

  filled @39 :Inner = .filledDefault;
  counted @40 :List(UInt16) = .countedDefault;
  listed @41 :List(Inner) = .listedDefault;
  named @42 :List(Text) = .namedDefault;

  shape :union {
    none @43 :Void;
    radius @44 :Float64;
    side :group {
      width @45 :UInt32;
      height @46 :UInt32;
      unit :union {
        metre @47 :Void;
        foot @48 :Text;
      }
    }
    corners @49 :List(Inner);
    other @50 :Inner;
    count @51 :Int16;
    sign @52 :Bool;
    paint @53 :Colour;
    photo @54 :Data;
    sizes @55 :List(UInt32);
    agent @56 :Service;
    extra @57 :AnyPointer;
  }

  tiny @58 :Int8 = -7;
  amount @59 :UInt32 = 4000000000;
  total @60 :UInt64 = 18446744073709551615;
  weight @61 :Float64 = -2.5;
  service @62 :Service;
  services @63 :List(Service);
  tinies @64 :List(Int8);
  ports @65 :List(UInt16);
  deltas @66 :List(Int32);
  keys @67 :List(UInt64);
  scales @68 :List(Float32);
  checked @69 :List(Bool) = .checkedDefault;
  sealed @70 :List(Data) = .sealedDefault;
  tabled @71 :List(List(Int8)) = .tabledDefault;

  spot :group {
    x @72 :Int32;
    on @73 :Bool;
    note @74 :Text;
    nothing @75 :Void;
  }
}

struct Inner {
  match @0 :UInt16;
  where @1 :Text;

  union {
    self @2 :UInt8;
    type @3 :Text;
    mod @4 :Void;
  }
}
