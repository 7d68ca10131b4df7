@0xc1a2c3d4e5f60751;
struct Item @0xc111222233334b41 { n @0 :UInt32; sub @1 :Box.Item; }
struct Box @0xc111222233334b42 { it @0 :Item; struct Item @0xc111222233334b43 { m @0 :UInt32; } struct Lid @0xc111222233334b44 { a @0 :Kind; } }
struct Jar @0xc111222233334b45 { struct Lid @0xc111222233334b46 { b @0 :UInt8; } }
enum Kind @0xc111222233334b47 { big @0; small @1; }
