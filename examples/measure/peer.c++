// What C++ takes for the relay's work: reads each message, sets the number at the front of its root's data to 7, and
// writes it as one canonical message in the same form.
//
// usage: peer framed|packed < MESSAGES > MESSAGES
//
//     g++ -O2 -std=c++17 -o peer peer.c++ -lcapnp -lkj        (Debian package libcapnp-dev)
#include <capnp/any.h>
#include <capnp/message.h>
#include <capnp/serialize-packed.h>
#include <capnp/serialize.h>
#include <kj/io.h>
#include <cstring>

// Words of memory that are used for message after message.
static capnp::word read[1 << 18], edited[1 << 18];

static void answer(capnp::MessageReader &message, kj::BufferedOutputStream &out, bool packed) {
  capnp::MallocMessageBuilder built(kj::arrayPtr(edited, sizeof(edited) / sizeof(capnp::word)));
  built.setRoot(message.getRoot<capnp::AnyPointer>());
  auto data = built.getRoot<capnp::AnyStruct>().getDataSection();
  data[0] = 7;
  data[1] = 0;
  auto words = built.getRoot<capnp::AnyStruct>().asReader().canonicalize();
  kj::ArrayPtr<const capnp::word> segment = words;
  auto segments = kj::arrayPtr(&segment, 1);
  if (packed) {
    capnp::writePackedMessage(out, segments);
  } else {
    capnp::writeMessage(out, segments);
  }
}

int main(int count, char **words) {
  bool packed = count == 2 && std::strcmp(words[1], "packed") == 0;
  kj::FdInputStream in(0);
  kj::FdOutputStream out(1);
  kj::BufferedInputStreamWrapper source(in);
  kj::BufferedOutputStreamWrapper sink(out);
  capnp::ReaderOptions options;
  options.traversalLimitInWords = 8388608;
  while (source.tryGetReadBuffer().size() > 0) {
    if (packed) {
      capnp::PackedMessageReader message(source, options, kj::arrayPtr(read, sizeof(read) / sizeof(capnp::word)));
      answer(message, sink, true);
    } else {
      capnp::InputStreamMessageReader message(source, options, kj::arrayPtr(read, sizeof(read) / sizeof(capnp::word)));
      answer(message, sink, false);
    }
  }
  sink.flush();
}
