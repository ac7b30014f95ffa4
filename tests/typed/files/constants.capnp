@0xd1e2f3a4b5c6d731;
enum E { a @0; b @1; }
struct S { x @0 :UInt8 = 5; y @1 :Text = "d"; l @2 :List(S); any @3 :AnyPointer; u :union { none @4 :Void; e @5 :E = b; s @6 :S; g :group { f @7 :Float64 = nan; h @8 :List(List(Bool)) = [[true], []]; } } }
const c0 :Void = void; const c1 :Bool = false; const c2 :Int8 = -128; const c3 :Int16 = -32768; const c4 :Int32 = -2147483648; const c5 :Int64 = -9223372036854775808; const c6 :UInt64 = 18446744073709551615;
const c7 :Float32 = inf; const c8 :Float32 = -inf; const c9 :Float32 = nan; const c10 :Float64 = 3.14159265358979; const c11 :Float64 = -0.0; const c12 :Float32 = 3.4028235e38; const c13 :Float64 = 5e-324; const c14 :Float32 = 2.718281828;
const c15 :Text = ""; const c16 :Data = ""; const c17 :List(Void) = [void, void]; const c18 :List(Bool) = [true, false, true, true, true, true, true, true, true]; const c19 :List(E) = [b, a]; const c20 :List(List(List(E))) = [[[b], []], []];
const c21 :List(Float32) = [nan, inf, -0.0]; const c22 :List(Text) = []; const c23 :S = (); const c24 :S = (u = (g = (f = 1, h = [[]]))); const c25 :List(S) = [(), (x = 0, y = "", l = [(y = "in")], u = (s = (u = (e = a))))];
const c26 :E = b; const c28 :UInt16 = .c29; const c29 :UInt16 = 77; const c30 :List(Data) = ["a", 0x"ff"]; const c31 :List(List(S)) = [[(x = 1)], [.c24]];
const c34 :List(UInt64) = [18446744073709551615, 0]; const c35 :List(Int8) = [-128, 127]; const c36 :G(Text) = (t = "x");
struct G(T) { t @0 :T; l @1 :List(G(T)); struct I { q @0 :T; } const inGeneric :G(Text) = (t = "in"); def @2 :G(Data) = (t = "bytes"); }
struct Scope { const c0 :UInt8 = 1; const e :E = a; struct In { const c0 :UInt8 = 2; } enum F { c0 @0; } const f :F = c0; group :group { a @0 :F; b @1 :UInt8 = .Scope.c0; } }
struct Empty {} struct OnlyUnion { union { a @0 :Void; b @1 :Void; } } struct OnlyGroup { g :group { x @0 :Void; } } struct OnlyPointer { p @0 :AnyPointer; } struct OnlyVoid { v @0 :Void; }
struct Kinds { a @0 :AnyPointer; b @1 :AnyStruct; c @2 :AnyList; d @3 :Capability; e @4 :List(S); f @5 :List(AnyList); g @6 :List(Capability); h @7 :List(List(S)); i @8 :List(Empty); j @9 :List(OnlyVoid); k @10 :Empty = (); l @11 :List(List(Void)); m @12 :List(List(List(List(List(List(E)))))); n @13 :List(List(Bool)) = [[true,false],[true]]; o @14 :List(List(Float64)); p @15 :List(List(Data)); }
