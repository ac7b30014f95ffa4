@0xd6bb4af5f0e1b3a7;
# Lists of each kind, for tests of reading from C.

struct Pair {
  number @0 :UInt16;
  text @1 :Text;
}

struct Lists {
  voids @0 :List(Void);
  bools @1 :List(Bool);
  bytes @2 :List(UInt8);
  shorts @3 :List(Int16);
  ints @4 :List(UInt32);
  longs @5 :List(Int64);
  floats @6 :List(Float32);
  doubles @7 :List(Float64);
  texts @8 :List(Text);
  datas @9 :List(Data);
  nested @10 :List(List(UInt8));
  pairs @11 :List(Pair);
  any @12 :AnyPointer;
}

const lists :Lists = (
  voids = [void, void, void],
  bools = [true, false, false, true, true, false, true, false, true, true],
  bytes = [1, 2, 250],
  shorts = [-1, 2, -32768],
  ints = [4000000000, 5],
  longs = [-9000000000000000000, 7],
  floats = [1.5, -0.25],
  doubles = [1e300, -2.5],
  texts = ["one", "", "three"],
  datas = [0x"01 02", ""],
  nested = [[1, 2], [], [3]],
  pairs = [(number = 7, text = "seven"), (), (number = 9)],
  any = .more,
);

const more :List(Pair) = [(number = 1)];
