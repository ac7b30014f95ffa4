@0xd0d1d2d3d4d5d601;
# Every feature of the schema language.

using Self = import "every.capnp";
using Inner.Colour;

const limit :UInt16 = 65535;
const lowest :Int8 = -128;
const enough :Int64 = -9223372036854775808;
const huge :UInt64 = 18446744073709551615;
const endless :Float64 = inf;
const odd :Float32 = nan;
const third :Float64 = 0.3333333333333333;
const on :Bool = true;
const nothing :Void = void;
const title :Text = "a \"title\"\n\t\\ \x01 é 漢";
const raw :Data = 0x"de ad be ef 00";
const tint :Colour = lightBlue;
const point :Point = (x = 1, y = -2);
const path :List(Point) = [(x = 1), (y = 2), .point];
const matrix :List(List(Float32)) = [[1, 2], [], [-0.5]];
const same :UInt16 = .limit;
const inner :Inner = (colour = lightBlue, deeper = (flags = [true, false]));

const originDefault :Point = (x = 10, y = 20);
const pathDefault :List(Point) = [(x = 1), (y = 2)];
const coloursDefault :List(Colour) = [red, lightBlue];
const textsDefault :List(Text) = ["", "x"];
const blobsDefault :List(Data) = [0x"00"];
const bitsDefault :List(Bool) = [true, true, false];
const floatsDefault :List(Float64) = [1.5, -inf];
const gridDefault :List(List(Point)) = [[(x = 3)], []];
const voidsDefault :List(Void) = [void, void];
const wideDefault :List(UInt64) = [0, 18446744073709551615];
const againDefault :Every = (number = 5, title = "inside");

annotation note @0xd0d1d2d3d4d5d6f1 (*) :Text;
annotation ranked(struct, field, enumerant) :Int32;
annotation marked(group, union) :Void;

# A point.
struct Point $note("flat") {
  x @0 :Int32;   # to the right
  y @1 :Int32;   # up
}

struct Pair(First, Second) {
  first @0 :First;
  second @1 :Second;
  rest @2 :List(Pair(Second, First));
}

struct Inner {
  enum Colour { red @0; lightBlue @2 $ranked(3); darkGreen @1; }

  colour @0 :Colour = darkGreen;
  struct Deeper {
    flags @0 :List(Bool);
    enum Colour { other @0; another @1; }
    colour @1 :Colour;
    up @2 :Inner;
    const depth :UInt8 = 2;
  }
  deeper @1 :Deeper;
}

interface Base { ping @0 () -> (); }
interface Service(T) extends(Base) {
  call @0 (request :Text, limit :UInt32 = 10) -> (answer :T);
  stop @1 ();
  pass @2 [A, B] (a :A) -> (b :B);
  many @3 (in :Point) -> stream;
}

struct Empty {}

struct OnlyUnion { union { a @0 :Void; b @1 :Void; } }

struct Every $ranked(1) {
  number @8 :UInt32;
  title @1 :Text = "untitled";
  flag @2 :Bool = true;
  low @3 :Int8 = -128;
  high @4 :UInt8 = 255;
  i16 @5 :Int16 = -32768;
  u16 @6 :UInt16 = 65535;
  i32 @7 :Int32 = -2147483648;
  i64 @0 :Int64 = -9223372036854775808;
  u32 @9 :UInt32 = 4294967295;
  u64 @10 :UInt64 = 18446744073709551615;
  f32 @11 :Float32 = -1.5;
  f64 @12 :Float64 = 1e300;
  none @13 :Void;
  colour @14 :Colour = lightBlue;
  other @15 :Inner.Deeper.Colour;
  blob @16 :Data = 0x"ff 00";
  origin @17 :Point = .originDefault;
  path @18 :List(Point) = .pathDefault;
  colours @19 :List(Colour) = .coloursDefault;
  texts @20 :List(Text) = .textsDefault;
  blobs @21 :List(Data) = .blobsDefault;
  bits @22 :List(Bool) = .bitsDefault;
  floats @23 :List(Float64) = .floatsDefault;
  grid @24 :List(List(Point)) = .gridDefault;
  voids @25 :List(Void) = .voidsDefault;
  wide @26 :List(UInt64) = .wideDefault;
  again @27 :Every;
  cube @28 :List(List(List(UInt8)));
  pair @29 :Pair(Text, Point);
  pairs @30 :List(Pair(Data, List(UInt16)));
  service @31 :Service(Text);
  services @32 :List(Service(Data));
  base @33 :Base;
  any @34 :AnyPointer;
  anyStruct @35 :AnyStruct;
  anyList @36 :AnyList;
  anyCapability @37 :Capability;
  empty @38 :Empty;
  empties @39 :List(Empty);
  only @40 :OnlyUnion;
  onlies @41 :List(OnlyUnion);

  place :group $marked {
    name @42 :Text = "here";
    at :group { latitude @43 :Float32; longitude @44 :Float32 = 8.5; }
    where :union {
      land @45 :Text;
      sea :group { depth @46 :UInt16 = 11; salt @47 :Bool; }
      air :union { low @48 :UInt8; high @49 :List(UInt32); thin @50 :Point; }
      nowhere @51 :Void;
    }
  }

  union {
    one @52 :UInt8 = 3;
    two @53 :Text = "two";
    three @54 :List(Inner);
    four @55 :Every;
    five @56 :AnyPointer;
    six :group { a @57 :Int64 = -6; b @58 :Data; c @59 :Colour = darkGreen; d @60 :Bool = true; }
    seven @61 :Service(Point);
    eight @62 :Void;
    nine @63 :Float32 = 2.25;
  }

  late @64 :Bool;
  later @65 :UInt16 = 7;
}

# An old struct that has become a group and a union.
struct Retro {
  union { was @0 :Text; is @1 :Text; isNot @2 :UInt64; }
  info :group { a @3 :Bool; b @4 :Bool; c @5 :UInt8; }
}
