# Defaults and constants of each type.
@0xd1f2a3b4c5d60701;

enum Color { red @0; green @1; blue @2; }

struct Inner {
  x @0 :Int32 = -7;
  name @1 :Text = "none";
  list @2 :List(UInt8);
  deeper @3 :Inner;
}

struct Values {
  void @0 :Void = void;
  yes @1 :Bool = true;
  no @2 :Bool = false;
  i8 @3 :Int8 = -128;
  i16 @4 :Int16 = -32768;
  i32 @5 :Int32 = -2147483648;
  i64 @6 :Int64 = -9223372036854775808;
  u8 @7 :UInt8 = 255;
  u16 @8 :UInt16 = 0xffff;
  u32 @9 :UInt32 = 0xFFFFFFFF;
  u64 @10 :UInt64 = 18446744073709551615;
  octal @11 :UInt32 = 0755;
  f32 @12 :Float32 = 1.5;
  f64 @13 :Float64 = -2.5e-10;
  whole @14 :Float64 = 3;
  infinite @15 :Float64 = inf;
  negative @16 :Float32 = -inf;
  unknown @17 :Float64 = nan;
  text @18 :Text = "a\tb\"c\\ \x41\n";
  wide @19 :Text = "Grüße, 世界";
  data @20 :Data = 0x"00 ff 1a2b";
  short @21 :Data = "abc";
  color @22 :Color = blue;
  flags @23 :List(Bool) = [true, false, true, true, false, false, true, false, true];
  bytes @24 :List(UInt8) = [1, 2, 3];
  longs @25 :List(Int64) = [-1, 0, 1];
  floats @26 :List(Float32) = [0.5, -0.25, inf];
  texts @27 :List(Text) = ["one", "", "three"];
  blobs @28 :List(Data) = [0x"01", "x"];
  colors @29 :List(Color) = [green, red];
  voids @30 :List(Void) = [void, void];
  lists @31 :List(List(UInt16)) = [[1, 2], [], [3]];
  inners @32 :List(Inner) = [(x = 1), (name = "two", list = [9]), ()];
  inner @33 :Inner = (x = 5, deeper = (x = 6, name = "deep"));
  empty @34 :Text = "";
  nothing @35 :Inner = ();
}

const answer :Int32 = 42;
const again :Int32 = .answer;
const pi :Float64 = 3.14159265358979;
const greeting :Text = "hello";
const one :Inner = (x = 1, name = .greeting);
const many :List(Inner) = [.one, (x = .answer)];
