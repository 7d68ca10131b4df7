@0xd2a8f0c1b7e39465;

struct Contact {
  name @0 :Text;
  phone @1 :Text;
  kind @2 :UInt16;
}
