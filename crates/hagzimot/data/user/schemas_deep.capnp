@0xd1a2c3d4e5f60761;
struct Deep @0xd111222233334c41 (T) { t @0 :T; inner @1 :Deep(Wrap(T)); }
struct Wrap @0xd111222233334c45 (X) { x @0 :X; }
struct Root @0xd111222233334c42 { d @0 :Deep(Text); p @1 :Pair(Pair(Text, Data).Other(Text), List(Float64)); }
struct Pair @0xd111222233334c43 (A, B) { a @0 :A; u :union { b @1 :B; none @2 :Void; } struct Other @0xd111222233334c44 (C) { a @0 :A; b @1 :B; c @2 :C; } }
