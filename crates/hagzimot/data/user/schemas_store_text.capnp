@0xf1a2c3d4e5f6072c;
interface Store @0xf111222233334549 (T) { put @0 (t :T) -> (); }
interface Sub @0xf11122223333454a { }
struct Holder @0xf11122223333454b { s @0 :Store(Text); b @1 :List(Store(Text)); }
