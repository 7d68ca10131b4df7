@0xd1f2a3b4c5d60704;

struct Common {
  struct Nested { n @0 :UInt8; back @1 :import "../names.capnp".Outer; }
  enum Level { low @0; high @1; }
  nested @0 :Nested;
  level @1 :Level;
}
