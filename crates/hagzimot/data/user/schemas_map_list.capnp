@0xd1a2c3d4e5f60751;
struct M @0xd111222233334b41 (K, V) { e @0 :List(E); struct E @0xd111222233334b43 { k @0 :K; v @1 :V; } }
struct R @0xd111222233334b44 { m @0 :M(Text, List(UInt64)); }
