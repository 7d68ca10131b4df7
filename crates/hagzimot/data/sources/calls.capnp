# Interfaces, annotations, and what is applied to what.
@0xd1f2a3b4c5d60706;

annotation label @0xd1f2a3b4c5d60721 (*) :Text;
annotation weight @0xd1f2a3b4c5d60722 (field, enumerant) :UInt16;
annotation mark @0xd1f2a3b4c5d60723 (struct, interface, method, param, union, group) :Void;
annotation box @0xd1f2a3b4c5d60724 (file, const) :Box;

$label("calls");
$box(n = 7);

struct Box $mark $label("a box") {
  n @0 :UInt8 $weight(3);
  choice :union $mark {
    a @1 :Void $label("a");
    b :group $mark { c @2 :Text $weight(4) $label("c"); }
  }
}

enum Sort $label("sorts") { small @0 $weight(1); large @1; }

const limit :UInt16 = 500 $box(n = 1);

interface Base $mark {
  ping @0 () -> ();
  close @1 () -> () $mark;
}

interface Other extends(Base) {
  send @0 (box :Box $mark, sort :Sort = large) -> (box :Box);
}

interface Both extends(Base, Other) {
  raw @0 Box -> Box;
  write @1 (data :Data) -> stream;
  none @2 ();
  struct Inside { both @0 :Both; }
}
