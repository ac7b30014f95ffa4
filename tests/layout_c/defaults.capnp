@0xe1c4a7f8b2d90355;

# Pointers with default values, which defaults.c reads; `unset` has none of them, and `set` all.

struct Inner {
  number @0 :UInt32;
  text @1 :Text;
}

struct Outer {
  inner @0 :Inner = (number = 5, text = "five");
  numbers @1 :List(UInt16) = [1, 2, 300];
  text @2 :Text = "default";
  data @3 :Data = 0x"00 ff 01";
  inners @4 :List(Inner) = [(number = 1), (number = 2, text = "two")];
}

const inner :Inner = (number = 5, text = "five");
const unset :Outer = ();
const set :Outer = (inner = (number = 6, text = "six"), numbers = [7], text = "eight", data = 0x"09", inners = []);
