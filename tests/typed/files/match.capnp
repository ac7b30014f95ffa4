@0xd1e2f3a4b5c6d712;
using Crate = import "crate.capnp";
struct Thing { x @0 :UInt8 = 7; main @1 :Crate.Main; next @2 :Thing = (x = 9); }
enum Hue { red @0; green @1; blue @2; }
struct Holder(T) { it @0 :T; list @1 :List(Holder(T)); hue @2 :Hue = green; struct Inner(U) { t @0 :T; u @1 :U; pair @2 :Holder(U); } inner @3 :Inner(Data); }
const word :Text = "w";
interface Service extends(Base(Text)) { get @0 (id :UInt64, opts :Options) -> Thing; struct Options { a @0 :UInt8; next @1 :Options; } stream @1 (x :Text) -> stream; }
interface Base(T) { put @0 [Q] (x :T, y :Q) -> (); struct Arg { a @0 :T; service @1 :Service; } enum Mode { one @0; } const zero :Int8 = 0; }
struct Uses { s @0 :Service; list @1 :List(Service); arg @2 :Base(Text).Arg; opts @3 :Service.Options; mode @4 :Base(Text).Mode; holder @5 :Holder(Service); lists @6 :List(List(Service)); }
