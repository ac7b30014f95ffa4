@0xd1e2f3a4b5c6d713;
using import "/deeper/lib.capnp".Leaf;
struct Node { name @0 :Text; children @1 :List(Node); up @2 :import "../crate.capnp".Main; leaf @3 :Leaf; }
const root :Node = (name = "root", children = [(), (name = "n", children = [])]);
