@0xd2c5a9f0b1e37785;
using C = import "/capnp_layout_c.capnp";
$C.prefix("people_");

struct Order { name @0 :Text; }
