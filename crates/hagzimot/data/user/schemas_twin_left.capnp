@0xc1a2c3d4e5f60753;
struct Order @0xc111222233334d41 { a @0 :UInt32; }
