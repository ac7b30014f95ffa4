@0xd1e2f3a4b5c6d761;
# Scopes in scopes with the same names, generics in them, and unions whose members are named like other things.
struct A { struct A { struct A { a @0 :A; b @1 : .A; c @2 : .A.A; union { a2 @3 :Void; a3 :group { a @4 :Text; union { a5 @5 :A; a6 @6 :Void; } } } } a @0 :A; } a @0 :A; aBuilder @1 :Text; aList @2 :List(A); getA @3 :Text; }
struct AList { x @0 :UInt8; } struct ABuilder { x @0 :UInt8; } struct AWhich { x @0 :UInt8; } struct AType { x @0 :UInt8; }
struct G(T, U) { t @0 :T; u @1 :U; struct H(V) { t @0 :T; u @1 :U; v @2 :V; g @3 :G(V, T); struct I { v @0 :V; h @1 :H(U); } enum E { one @0; } e @4 :E; es @5 :List(E); } union { h @2 :H(Text); i @3 :H(Data).I; e @4 :List(H(Text).E); } const k :UInt8 = 1; }
struct UsesG { a @0 :G(Text, Data); b @1 :G(A, List(Text)); c @2 :List(G(A, A)); d @3 :G(A, A).H(A); e @4 :List(List(G(A, A).H(A).E)); f @5 :G(List(A), AnyPointer).H(List(List(UInt8))).I; g :group { h @6 :G(Text, Text) = (t = "x", u = "y"); union { i @7 :G(Text, Text).H(Text).E = one; j @8 :Void; } } k @9 :UInt8 = G.k; }
interface P(T) { m @0 (t :T) -> (u :List(UInt8)); struct Q { t @0 :T; p @1 :P(T); ps @2 :List(P(T)); } interface R extends(P(T)) { n @0 Q -> Q; } }
struct UsesP { p @0 :P(Text); q @1 :P(Text).Q; r @2 :P(Data).R; rs @3 :List(P(Data).R); union { s @4 :P(Text); t @5 :List(List(P(Text))); u @6 :Capability; } }
annotation ann @0xd1e2f3a4b5c6d762 (*) :Void; annotation anns(struct, field, group, union, enum, enumerant, const, file, interface, method, param, annotation) :List(UInt8);
struct Ann $ann $anns([1, 2]) { a @0 :UInt8 $ann; u :union $ann { b @1 :Void $ann; c :group $ann { d @2 :Void; } } } enum AnnE $ann { a @0 $ann; } const annC :UInt8 = 1 $ann; 
struct Single { u :union { a @0 :Void; b @1 :Void; } v :union { a @2 :Void; b @3 :Void; } w :union { a @4 :Void; b @5 :Void; } x :union { a @6 :Single; b @7 :Single; } }
struct Retro { union { a @0 :UInt8; b @1 :UInt16; } c @2 :UInt64; d :union { e @3 :List(Retro); f @4 :Float32 = -0.0; } g @5 :Retro $ann; }
struct Ordinals { c @2 :UInt8; a @0 :UInt8; b @1 :UInt8; u @3! :union { e @5 :Void; d @4 :Void; } }
struct Zero { v @0 :Void; w @1 :List(Void); x @2 :List(List(Void)) = [[void]]; } struct Zeros { z @0 :Zero; zs @1 :List(Zero) = [(), ()]; }
struct Bits { a0 @0 :Bool = true; a1 @1 :Bool; u :union { b0 @2 :Bool = true; b1 @3 :Bool; } g :group { c0 @4 :Bool = true; union { d0 @5 :Bool; d1 @6 :UInt8 = 255; } } bits @7 :List(Bool) = [true]; bitses @8 :List(List(Bool)) = [[], [true]]; }
