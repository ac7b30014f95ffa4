@0xd0d1d2d3d4d5d602;
# The messages of a trading system.

using Price = Int64;
using Quantity = UInt64;
using Time = UInt64;

enum Side { buy @0; sell @1; sellShort @2; }
enum OrderType { limit @0; market @1; stop @2; stopLimit @3; pegged @4; }
enum TimeInForce { day @0; gtc @1; ioc @2; fok @3; gtd @4; }
enum Status { new @0; partiallyFilled @1; filled @2; cancelled @3; replaced @4; rejected @5; expired @6; }
enum Currency { usd @0; eur @1; gbp @2; jpy @3; chf @4; }

struct Instrument {
  id @0 :UInt32;
  symbol @1 :Text;
  isin @2 :Text;
  exchange @3 :Text;
  currency @4 :Currency;
  tick @5 :Price = 100;
  lot @6 :UInt32 = 1;
  union {
    equity :group { issuer @7 :Text; shares @8 :Quantity; }
    future :group { expiry @9 :Time; multiplier @10 :UInt32 = 1; underlying @11 :UInt32; }
    option :group {
      expiration @12 :Time;
      strike @13 :Price;
      style @14 :Style;
      isCall @15 :Bool = true;
      of @16 :Instrument;
    }
    pair :group { base @17 :Currency; quote @18 :Currency = eur; }
  }
  enum Style { european @0; american @1; bermudan @2; }
}

struct Party {
  name @0 :Text;
  lei @1 :Data;
  accounts @2 :List(Text);
  roles @3 :List(Role);
  enum Role { trader @0; broker @1; clearer @2; custodian @3; }
}

struct Order {
  clientId @0 :Text;
  id @1 :UInt64;
  instrument @2 :UInt32;
  side @3 :Side;
  type @4 :OrderType = limit;
  timeInForce @5 :TimeInForce = day;
  price @6 :Price;
  quantity @7 :Quantity;
  shown @8 :Quantity = 18446744073709551615;
  minimum @9 :Quantity;
  party @10 :Party;
  legs @11 :List(Leg);
  tags @12 :List(Tag);
  condition :union {
    none @13 :Void;
    above @14 :Price;
    below @15 :Price;
    at @16 :Time;
    peg :group { offset @17 :Int32 = -1; limit @18 :Price; toMid @19 :Bool; }
  }
  isHidden @20 :Bool;
  isPostOnly @21 :Bool = true;
  expiry @22 :Time;
  parent @23 :Order;
}

struct Leg {
  instrument @0 :UInt32;
  ratio @1 :Int16 = 1;
  side @2 :Side = sell;
  price @3 :Price;
}

struct Tag { key @0 :UInt16; union { text @1 :Text; number @2 :Int64; bytes @3 :Data; flag @4 :Bool; ratio @5 :Float64; } }

struct Report {
  order @0 :UInt64;
  execution @1 :UInt64;
  status @2 :Status;
  fills @3 :List(Fill);
  left @4 :Quantity;
  average @5 :Float64;
  reason :union { none @6 :Void; code @7 :UInt16; text @8 :Text; }
  at @9 :Time;
}

struct Fill {
  price @0 :Price;
  quantity @1 :Quantity;
  venue @2 :Text;
  fee :group { amount @3 :Price; currency @4 :Currency; isRebate @5 :Bool; }
  contra @6 :Party;
  liquidity @7 :Liquidity = removed;
  enum Liquidity { added @0; removed @1; routed @2; }
}

struct Level { price @0 :Price; quantity @1 :Quantity; orders @2 :UInt32; }

struct Book {
  instrument @0 :UInt32;
  sequence @1 :UInt64;
  bids @2 :List(Level);
  asks @3 :List(Level);
  last @4 :Float64;
  isCrossed @5 :Bool;
  history @6 :List(List(Level));
  marks @7 :List(Float32);
}

struct Risk {
  party @0 :Text;
  limits @1 :List(Limit);
  struct Limit {
    instrument @0 :UInt32;
    union { gross @1 :Quantity; net @2 :Int64; orders @3 :UInt32; rate :group { perSecond @4 :UInt16 = 100; burst @5 :UInt16; } }
    isHard @6 :Bool = true;
  }
  matrix @2 :List(List(Float64));
  breaches @3 :List(UInt16);
}

struct Session {
  id @0 :Data;
  heartbeat @1 :UInt32 = 30000;
  sequence @2 :UInt64 = 1;
  state :union {
    idle @3 :Void;
    open :group { since @4 :Time; user @5 :Text; features @6 :List(Bool); }
    closed :group { reason @7 :Text = "logout"; at @8 :Time; }
  }
}

struct Message {
  sender @0 :Text;
  target @1 :Text;
  sequence @2 :UInt64;
  sent @3 :Time;
  body :union {
    order @4 :Order;
    orders @5 :List(Order);
    cancel :group { id @6 :UInt64; reason @7 :Text; }
    replace :group { of @8 :UInt64; by @9 :Order; }
    report @10 :Report;
    book @11 :Book;
    instrument @12 :Instrument;
    risk @13 :Risk;
    session @14 :Session;
    heartbeat @15 :Void;
    batch @16 :List(Message);
    raw @17 :Data;
    extension @18 :AnyPointer;
  }
  signature @19 :Data;
}
