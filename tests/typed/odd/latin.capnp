@0xf0f1f2f3f4f5f6b7;
# A text whose default value isn't UTF-8, beside one whose is.
struct Latin {
  word @0 :Text = "caf\xe9";
  next @1 :Text = "caf\xc3\xa9";
  union {
    other @2 :Text = "\xff";
    data @3 :Data = "\xff";
  }
}
