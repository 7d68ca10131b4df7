# Generic types, bound and not bound.
@0xd1f2a3b4c5d60705;

struct Pair(A, B) {
  a @0 :A;
  b @1 :B;
  both @2 :Pair(B, A);
  struct Deeper(C) {
    a @0 :A;
    c @1 :C;
    up @2 :Pair(C, B);
    list @3 :List(Pair(A, C));
  }
  deeper @3 :Deeper(Text);
  struct Plain { b @0 :B; }
  plain @4 :Plain;
}

struct Uses {
  texts @0 :Pair(Text, Data);
  open @1 :Pair;
  lists @2 :Pair(List(UInt8), List(Text));
  deep @3 :Pair(Text, Text).Deeper(Data);
  inner @4 :Pair(Uses, Item).Plain;
  nested @5 :Pair(Pair(Text, Data), Item);
  any @6 :AnyPointer;
  structs @7 :AnyStruct;
  anyList @8 :AnyList;
  given @9 :Pair(Text, Text) = (a = "x", b = "y");
  struct Item { n @0 :UInt8; }
}

interface Store(T) {
  get @0 () -> (value :T);
  put @1 (value :T, under :Text = "main") -> (old :T, count :UInt32);
  each @2 [U] (by :Pair(T, U)) -> (value :U);
}

struct Stores {
  text @0 :Store(Text);
  stores @1 :List(Store(Item));
  any @2 :Capability;
  struct Item { n @0 :UInt8; }
}
