@0xa4b1c2d3e4f50617;
# Default values that contain their own types.

const kidsDefault :List(Nest) = [(label = "a"), (label = "b", kids = [(label = "z")])];
const innerDefault :Nest = (label = "c", kids = []);
const chosenDefault :List(Nest) = [(label = "d")];

struct Nest {
  kids @0 :List(Nest) = .kidsDefault;
  label @1 :Text;
  inner @2 :Nest = .innerDefault;
  union {
    none @3 :Void;
    chosen @4 :List(Nest) = .chosenDefault;
  }
}
