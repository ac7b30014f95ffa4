@0xb6f5f0d4d9a3c1ea;
# Names that are words of Rust or of generated code, or that clash, and every kind of declaration.
using B = import "other.capnp";

const smallest :Int64 = -9223372036854775808;
const greeting :Text = "hé\"llo\n\\";
const blob :Data = 0x"00 ff 22";
const ratio :Float32 = 1.5;
const nothing :Void = void;
const yes :Bool = true;
const hue :Option = type;
const book :Result = (ok = 5, toName = "x");
const many :List(Int32) = [1, 2, 3];
const table :List(List(Result)) = [[(ok = 1)], []];
const other :B.Thing = (id = 7);

enum Option { none @0; type @1; self @2; unknown @3; oK @4; }
enum RGB { red @0; }

# A struct.
#
#     indented code() { that isn't Rust }
#
# - a list
#   with [links] and <tags>, `code` and ```fences```
# 1. numbered
# and lazily continued
struct Result {
  ok @0 :UInt32;
  # The `ok` field.
  toName @1 :Text = "naïve\x00";
  isLong @2 :Bool;
  len @3 :UInt32;
  new @4 :Text;
  fromX @5 :Result;
  hasNew @6 :Bool;
  newBytes @7 :Data;
  next @8 :List(List(List(Result)));
  into @9 :Result;
  asRef @10 :UInt16;
  eq @11 :Text;
  clone @12 :Text;
  default @13 :UInt8;
  getHTTPServerURL @14 :Text;
  httpURL @15 :Option = self;
  httpUrl @16 :List(Option);
  other @17 :B.Thing;
  others @18 :List(B.Thing);
  inner @19 :Builder;
  ratio @20 :Float64 = 2.5;
  hugeDefaultTextHugeDefaultTextHugeDefaultText @21 :Text = "aaaaaaaaaaaaaaaaaaaaaaaaaaaaaaaaaaaaaaaaaaaaaaaaaaaaaaaaaaaaaaaaaaaaaaaaaaaaaaaaaaaaaaaaaaaaaaaaaaaaaaaaaaaaaaaaaaaaaaaaaaaaaaaaaaaaa";
  textOfEighty @22 :Text = "aaaaaaaaaaaaaaaaaaaaaaaaaaaaaaaaaaaaaaaaaaaaaaaaaaaaaaaaaaaaaaaaaaaaaaaaaaaa";
  empty @23 :UInt8;
  fooBarBazFooBarBazFooBarBazFooBarBazFooBarBazFooBar @24 :List(List(Text));
  struct Builder { which @0 :Text; struct Which { x @0 :UInt8; } w @1 :Which; struct U8 {} u8 @2 :U8; struct Result {a @0 :Text;} r @3 :Result; outer @4 : .Result; }
  sum :union { unknown @25 :Void; self @26 :Result; d :group { nested :union { a @27 :UInt8; b @28 :List(Builder); c :group { x @29 :Text = "q"; y @30 :Float32; z @31 :Void; } } flag @32 :Bool; } e @33 :List(UInt8) = [1,2]; f @34 :Float64 = 9.5; any @35 :AnyPointer; }
}
struct Nothing {}
struct Pair(A, B) { first @0 :A; second @1 :B; }
struct Uses { pair @0 :Pair(Text, Result); any @1 :AnyStruct; l @2 :AnyList; c @3 :Capability; }
interface Service { call @0 (x :UInt32) -> (y :Text); struct Arg { a @0 :Text; } const k :UInt8 = 3; interface Deep { enum E { a @0; } } }
annotation note(*) :Text;
struct G {} struct Core { x @0 :G; } struct Str {s @0 :Text;}
struct M { m :group { x @0 :M; y @1 :List(M); } struct M { a @0 :M; union { b @1 :List(M); c @2 :M; } struct M {} } }
