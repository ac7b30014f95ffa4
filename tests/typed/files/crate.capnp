@0xd1e2f3a4b5c6d711;
# Files that import one another, in folders, with the same name as others, or with declarations that have the same names.
using Sub = import "sub/mod.capnp";
using Match = import "match.capnp";
using Other = import "other/mod.capnp";
using import "match.capnp".Thing;
using Alias = Match.Holder(Text);

annotation note @0xd1e2f3a4b5c6d7f1 (*) :Sub.Node;
$note(name = "file");

struct Main $note(name = "struct") {
  node @0 :Sub.Node $note(name = "field");
  nodes @1 :List(Sub.Node) = [(name = "a"), (children = [(name = "b")])];
  thing @2 :Thing = .here;
  hue @3 :Match.Hue = blue;
  hues @4 :List(List(Match.Hue)) = [[red], [blue, green]];
  holder @5 :Match.Holder(Sub.Node);
  inner @6 :Match.Holder(Text).Inner(Match.Holder(Main));
  alias @7 :Alias;
  fallback @8 :Sub.Node = Sub.root;
  union { other @9 :Other.Other; text @10 :Text = Match.word; }
  words @11 :Text = embed "words.txt";
}
const here :Thing = (x = 3, main = (hue = green));
const fileOfMain :Main = (node = (name = "x"));
const elsewhere :Other.Other = (x = 1);
