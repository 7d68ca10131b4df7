@0xc1a2c3d4e5f60752;
struct Only @0xc111222233334c41 { n @0 :UInt32; p @1 :Part; struct Part @0xc111222233334c42 { m @0 :UInt32; } }
enum Kind @0xc111222233334c43 { big @0; }
