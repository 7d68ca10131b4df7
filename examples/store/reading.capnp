@0xb1f6c0a5a2d3e4f7;

struct Reading {
  station @0 :UInt32;
  kind @1 :UInt16;
  value @2 :Int64;
  note @3 :Text;
  samples @4 :List(Sample);
  raw @5 :Data;
}

struct Sample {
  at @0 :UInt32;
  value @1 :Int32;
  label @2 :Text;
}
