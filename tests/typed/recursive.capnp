@0xf2b7d0a91c3e5846;
# Structs that lead to themselves: by a field, by the first member of a union, and by default values of their own types.

struct Tree {
  number @0 :Int32;
  left @1 :Tree;
  children @2 :List(Tree);
  knot :group { inner @3 :Tree; }
}

struct Term {
  union {
    not @0 :Term;
    both :group { first @1 :Term; second @2 :Term; }
    constant @3 :Bool;
  }
}

struct Chain {
  number @0 :Int32;
  next @1 :Chain = (number = 7);
}

struct Ring {
  number @0 :Int32;
  union {
    again @1 :Ring = (number = 9);
    end @2 :Void;
  }
}

struct Nest {
  number @0 :Int32;
  kids @1 :List(Nest) = [(number = 5)];
}
