@0xd1e2f3a4b5c6d742;
struct Shape { y @0 :Text; }
struct OnlyC { t @0 :Shape; }
