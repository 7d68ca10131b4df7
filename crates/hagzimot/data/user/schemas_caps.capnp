@0xf1a2c3d4e5f6071c;
struct H @0xf111222233334449 { name @0 :Text; cap @1 :Capability; any @2 :AnyStruct; list @3 :AnyList; }
