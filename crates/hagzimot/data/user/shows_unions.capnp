@0xe1a2c3d4e5f60752;

# Unions whose active member is a null pointer.

struct Unions @0xe111222233334b42 {
  a @0 :UInt8;
  union {
    t @1 :Text;
    d @2 :Data;
    l @3 :List(Text);
    s @4 :Inner;
    v @5 :Void;
  }
  z @6 :UInt16;
  g :group {
    union {
      ga @7 :Text;
      gb @8 :Void;
    }
  }
}

struct Inner @0xe111222233334b43 {
  union {
    x @0 :Innermost;
    y @1 :Void;
  }
  b @2 :Bool;
}

struct Innermost @0xe111222233334b44 {
  n @0 :Int32;
  union {
    p @1 :Data;
    q @2 :Void;
  }
}

# A struct that holds itself as the first member of its union; the C++ tool's JSON of it has no end.
struct Node @0xe111222233334b41 {
  union {
    child @0 :Node;
    leaf @1 :Int32;
  }
}
