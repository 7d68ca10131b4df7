@0xc1a2c3d4e5f60754;
using Left = import "schemas_twin_left.capnp";
struct Order @0xc111222233334d42 { left @0 :Left.Order; }
