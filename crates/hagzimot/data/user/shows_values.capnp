@0xe1a2c3d4e5f60751;

# Single values of each sort.

enum Color @0xe111222233334b45 {
  red @0;
  green @1;
}

struct Values @0xe111222233334b46 {
  f @0 :List(Float32);
  d @1 :List(Float64);
  t @2 :List(Text);
  data @3 :List(Data);
  v @4 :Void;
  lv @5 :List(Void);
  e @6 :Color;
  le @7 :List(Color);
  ll @8 :List(List(UInt8));
  b @9 :Bool;
  i @10 :Int64 = -7;
  any @11 :AnyPointer;
}

# The same bytes as Values, read under other types.
struct Misread @0xe111222233334b47 {
  t @0 :Text;
  d @1 :List(Misread);
}
