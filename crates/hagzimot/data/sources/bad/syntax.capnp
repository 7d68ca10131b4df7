@0xd1f2a3b4c5d60742;

struct Order {
  number @0 UInt32;
	paid @1 :Bool
  total :Int64;
}

enum Status {
  new @0;
  sent 1;
}

structure Line {}
