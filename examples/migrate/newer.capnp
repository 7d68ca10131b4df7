@0xd2a8f0c1b7e39466;

struct Contact {
  name @0 :Text;
  phone @1 :Text;
  kind @2 :UInt16;
  revision @3 :UInt16;
  region @4 :Text;
}
