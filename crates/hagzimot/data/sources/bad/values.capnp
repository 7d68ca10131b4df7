@0xd1f2a3b4c5d60745;

enum Status { new @0; sent @1; }

struct Order {
  count @0 :UInt8 = 256;
  status @1 :Status = send;
  name @2 :Text = 5;
  line @3 :Line = (count = 1, colour = 2);
}

struct Line { count @0 :UInt8; color @1 :UInt8; }
