@0xf1a2c3d4e5f60e1d;
struct A @0xf111222233334e61 { n @0 :UInt32; }
