@0xd1f2a3b4c5d60741;

struct Customer {
  name @0 :Text;
}

struct Order {
  number @0 :UInt32;
  customer @1 :Custmer;
  lines @2 :List(Article);
  total @3 :Customer.Total;
}
