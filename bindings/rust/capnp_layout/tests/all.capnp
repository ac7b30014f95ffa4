@0xd2f4a1c3b5e69788;

struct All {
  numbers @0 :List(UInt16);
  floats @1 :List(Float64);
  texts @2 :List(Text);
  data @3 :Data;
  datas @4 :List(Data);
  nested @5 :List(List(UInt8));
  inner @6 :All;
  bits @7 :List(Bool);
  any @8 :AnyPointer;
  flag @9 :Bool;
  number @10 :Int64;
  alls @11 :List(All);
  small @12 :Float32 = 1.5;
  text @13 :Text;
}
