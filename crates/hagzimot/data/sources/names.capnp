# Names in nested scopes, and aliases of them.
@0xd1f2a3b4c5d60703;

using Import = import "parts/common.capnp";
using Import.Common;
using Far = import "/parts/common.capnp".Common.Nested;

struct Outer @0xd1f2a3b4c5d60711 {
  struct Item { outer @0 :UInt8; }
  item @0 :Item;
  inner @1 :Inner;
  struct Inner {
    struct Item { inner @0 :UInt16; }
    near @0 :Item;
    far @1 :Outer.Item;
    top @2 : .Item;
    kind @3 :Kind;
    using Alias = Outer.Item;
    alias @4 :Alias;
  }
  enum Kind { some @0; other @1; }
  common @2 :Common;
  nested @3 :Common.Nested;
  beyond @4 :Far;
  kind @5 :Import.Common.Level = high;
  const least :UInt8 = 3;
  bound @6 :UInt8 = .Outer.least;
  group :group {
    item @7 :Item;
    deeper :group { item @8 :Item; }
  }
}

struct Item { top @0 :UInt32; }

const note :Text = embed "parts/note.txt";
