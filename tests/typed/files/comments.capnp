@0xd1e2f3a4b5c6d721;
# */ A comment that ends C's. /* And begins one. ??/
# A line that ends in a backslash \
# Unmatched `code and <b>tags, &amp; *stars* _under_ [link] [a]: b
#	tabs	in	lines
#   * deep
#       code
#  1) one
#  10) ten
#     more
#
#
# # heading
# ----
# | a | b |
# ```rust
# let x = ;
# ```
# ```
# unclosed

struct Comments {
  # Text with ‮ bidi and ‏ marks, NUL-free, "quotes" and 'single' and \u{0}, \n, %s, {}
  a @0 :Text = "‮bidi‏ ??/ ??= */ // \\ {} %s \t \x7f \x80";
  #
  b @1 :Text = "";
  # ! exclamation
  c @2 :Data = "??/";
  #! doc
  d @3 :UInt8;
  #/// slashes
  # fn main() { }
  # ```
  # fn main() { panic!() }
  # ```
  union {
    # a comment of a union
    e @4 :Void;
    # > quote
    # lazy
    f @5 :Text;
    # - a
    # b
    #  - c
    #   d
  }
  g :group {
    # of a group
    h @6 :UInt8;
    # 日本語 のコメント。 Ünïcödé — “quotes” …
    i @7 :Text = "日本語";
  }
  verylongline @8 :Text;
  # aaaaaaaaaaaaaaaaaaaaaaaaaaaaaaaaaaaaaaaaaaaaaaaaaaaaaaaaaaaaaaaaaaaaaaaaaaaaaaaaaaaaaaaaaaaaaaaaaaaaaaaaaaaaaaaaaaaaaaaaaaaaaaaaaaaaaaaaaaaaaaaaaaaaaaaaaaaaaaaaaaaaaaaaaaaaaaaaaaaaaaaaaaaaaaaaaaaaaaaaaaaaaaaaaaaaaaaa bbbbbbbbbbbbbbbbbbbbbbb cccccccccccccccccccccccccccccccccccccccc
}
enum E {
  # */
  one @0;
  # one */ \
  two @1;
  # two //
}
const text :Text = "??/ */ \\ \" \x01 ‮ \n";
const long :Text = "0123456789abcdef0123456789abcdef0123456789abcdef0123456789abcdef";
const bytes :Data = "0123456789abcdef0123456789abcdef0123456789abcdef0123456789abcdef";
