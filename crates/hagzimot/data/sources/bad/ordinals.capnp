@0xd1f2a3b4c5d60744;

struct Order {
  number @0 :UInt32;
  paid @0 :Bool;
  total @3 :Int64;
}
