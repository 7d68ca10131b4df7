@0xd3a1b2c4e5f60719;
# A field of each sort, with and without a default.
enum Color { red @0; green @1; blue @2; }

struct Leaf {
  n @0 :UInt16 = 5;
  flag @1 :Bool = true;
  s @2 :Text = "dflt";
  c @3 :Color = green;
}

struct Rich {
  b0 @0 :Bool;
  i8 @1 :Int8;
  i16 @2 :Int16 = -300;
  i32 @3 :Int32;
  i64 @4 :Int64 = -9000000000;
  u8 @5 :UInt8 = 200;
  u16 @6 :UInt16;
  u32 @7 :UInt32 = 4000000000;
  u64 @8 :UInt64;
  nothing @9 :Void;
  color @10 :Color = blue;
  text @11 :Text;
  textDefault @12 :Text = "hello \"x\"\n";
  data @13 :Data;
  dataDefault @14 :Data = 0x"00 ff 7f";
  leaf @15 :Leaf;
  leafDefault @16 :Leaf = (n = 9, s = "in default", flag = false);
  any @17 :AnyPointer;
  voids @18 :List(Void);
  bools @19 :List(Bool) = [true, false, true];
  bytes @20 :List(UInt8);
  shorts @21 :List(Int16) = [1, -2, 3];
  ints @22 :List(UInt32);
  longs @23 :List(Int64);
  colors @24 :List(Color);
  texts @25 :List(Text) = ["a", "b"];
  datas @26 :List(Data);
  leaves @27 :List(Leaf) = [(n = 1), (s = "zz")];
  matrix @28 :List(List(Int32));
  leafRows @29 :List(List(Leaf));
  textRows @30 :List(List(Text));
  self @31 :Rich;
  choice :union {
    none @32 :Void;
    num @33 :Int32 = 7;
    str @34 :Text = "union text";
    sub @35 :Leaf;
    subDefault @36 :Leaf = (n = 77);
    list @37 :List(Leaf);
    pair :group {
      x @38 :UInt8;
      y @39 :Text;
      inner :union {
        p @40 :UInt16;
        q @41 :Leaf;
      }
    }
    untyped @42 :AnyPointer;
    flags @43 :List(Bool) = [true];
  }
  grp :group {
    g1 @44 :UInt16 = 1234;
    g2 @45 :Text;
    deeper :group {
      d1 @46 :Bool = true;
      d2 @47 :List(UInt8);
      d3 @48 :Leaf;
    }
  }
  tail @49 :Bool;
  tree @50 :List(Rich);
  f32 @51 :Float32;
  f64 @52 :Float64 = -2.5;
  f32s @53 :List(Float32);
  f64Rows @54 :List(List(Float64));
}

struct Chain { next @0 :Chain; v @1 :UInt8; }
struct Holder { union { empty @0 :Void; held @1 :Holder; word @2 :UInt64; } after @3 :UInt8; }
struct Empty {}
struct Empties { list @0 :List(Empty); one @1 :Empty; many @2 :List(List(Void)); }
