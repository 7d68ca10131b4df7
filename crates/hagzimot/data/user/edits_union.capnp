@0xc1a2c3d4e5f60761;
struct O @0xc111222233334c41 { id @0 :UInt32; state :union { open @1 :Void; shipped :group { carrier @2 :Text; } cancelled @3 :Text; } note @4 :Text; any @5 :AnyPointer; anys @6 :List(List(Text)); }
