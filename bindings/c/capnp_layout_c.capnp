# Annotations of a schema for capnpc-layout-c, which says how it names things in C. With this file in a folder that
# `capnp compile` searches (`-I`):
#
#     using C = import "/capnp_layout_c.capnp";
#     $C.prefix("shop_");
#
#     struct Order { class @0 :Text $C.name("category"); }

@0xf177d6bc12af15be;

annotation prefix @0xa75363eb88b0edfc (file) :Text;
# What the names of all that the file declares begin with: the struct `Order` is `shop_Order` in C. Starts with a small letter, and
# has letters, digits and `_`; not `capnp_` at its start.

annotation name @0xa718b959be0c9d68 (struct, union, group, enum, enumerant, field, const) :Text;
# The name in C, in place of the schema's. Has letters and digits only, starts with a letter of the same case, and is the only one of
# its scope.
