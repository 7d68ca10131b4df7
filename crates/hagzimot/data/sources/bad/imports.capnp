@0xd1f2a3b4c5d60743;

using Shop = import "shop.capnp";
using Cpp = import "/capnp/cpp.capnp";

struct Order {
  picture @0 :Data = embed "picture.png";
}
