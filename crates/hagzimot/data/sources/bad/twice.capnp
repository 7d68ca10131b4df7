@0xd1f2a3b4c5d60747;

struct Order {
  number @0 :UInt32;
  number @1 :UInt64;
}

struct Order {}
struct order {}
