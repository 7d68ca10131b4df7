# Where fields, groups and unions are.
@0xd1f2a3b4c5d60702;

struct Holes {
  a @0 :Bool;
  b @1 :UInt64;
  c @2 :UInt8;
  d @3 :UInt32;
  e @4 :Bool;
  f @5 :UInt16;
  g @6 :UInt16;
  h @7 :Text;
  i @8 :UInt8;
  j @9 :UInt64;
  k @10 :Bool;
}

struct Unions {
  before @0 :UInt16;
  union {
    first @1 :UInt8;
    second @2 :UInt64;
    third @3 :Text;
    fourth :group {
      x @4 :UInt32;
      y @5 :Text;
    }
  }
  after @6 :UInt8;
  named :union {
    left @7 :Void;
    right @8 :Float64;
    more :group {
      union {
        p @9 :UInt16;
        q @10 :List(Unions);
      }
      z @11 :Bool;
    }
  }
  last @12 :UInt32;
}

struct Late {
  outer :group {
    union {
      none @0 :Void;
      some @2 :UInt32;
    }
    beside @1 :Bool;
  }
  choice @4! :union {
    one @3 :UInt8;
    two @5 :UInt16;
  }
}

struct OrderOfSource {
  c @2 :UInt8;
  a @0 :UInt32;
  b @1 :Bool;
}

struct Bare {}

struct Words { a @0 :UInt64; }
struct Pointers { a @0 :Text; b @1 :Data; }
