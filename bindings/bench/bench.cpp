// Measures libhagzimot beside libcapnp, in one process and in turns, on the streams of a folder.
//
// usage: bench FOLDER [ROUNDS]      (FOLDER: what examples/measure/corpora.py makes; 15 rounds unless the words say otherwise)
//
//     g++ -O2 -std=c++17 -IBUILT -o bench bench.cpp BUILT/libhagzimot.a -lcapnp -lkj
//
// BUILT is what tools/c_library.py makes, and libcapnp-dev the package of Debian. The work: read a message of a stream, set
// the number at the front of its root's data to 7, and write it. Prints a table: nanoseconds a message of the thread's time on
// its processor, the median of the rounds and the least. The results of both libraries are compared first; the status is 1 if
// they differ.
#include <algorithm>
#include <capnp/any.h>
#include <capnp/message.h>
#include <capnp/serialize.h>
#include <cstdio>
#include <cstdlib>
#include <cstring>
#include <fstream>
#include <functional>
#include <hagzimot.hpp>
#include <iterator>
#include <kj/io.h>
#include <string>
#include <time.h>
#include <vector>

using hagzimot_cpp::Bytes;

static const size_t BATCH = 100;
static const uint32_t WORDS = 8388608, LEVELS = 64;
static const char *const SET = R"({"calls": [{"path": ["a"], "verb": "set", "value": {"number": 7}}]})";
// A message is as long as its table says.
static size_t size_of_frame(const uint8_t *at) {
  uint32_t table[512];
  std::memcpy(table, at, 4);
  size_t count = size_t(table[0]) + 1, words = 0;
  std::memcpy(table, at, 4 * (count + 1));
  for (size_t i = 1; i <= count; i++)
    words += table[i];
  return 8 * ((count + 2) / 2 + words);
}

static Bytes bytes_of(const std::string &path) {
  std::ifstream file(path, std::ios::binary);
  if (!file) {
    std::fprintf(stderr, "%s: it can't be read\n", path.c_str());
    std::exit(2);
  }
  return Bytes(std::istreambuf_iterator<char>(file), {});
}

// The messages of a stream, which are one after the other in aligned memory.
struct Stream {
  std::vector<capnp::word> words;
  std::vector<size_t> starts;
  explicit Stream(const Bytes &bytes) : words(bytes.size() / 8) {
    std::memcpy(static_cast<void *>(words.data()), bytes.data(), bytes.size());
    for (size_t at = 0; at < bytes.size(); at += size_of_frame(bytes.data() + at))
      starts.push_back(at);
    starts.push_back(bytes.size());
  }
  size_t count() const { return starts.size() - 1; }
  const uint8_t *at(size_t i) const { return reinterpret_cast<const uint8_t *>(words.data()) + starts[i]; }
  size_t size(size_t from, size_t to) const { return starts[to] - starts[from]; }
};

// Memory that each work writes again and again.
static std::vector<uint8_t> out(1 << 24), lines(1 << 20);
static std::vector<capnp::word> scratch(1 << 18);
static size_t out_len, log_len;

[[noreturn]] static void stop(const char *what, unsigned status) {
  std::fprintf(stderr, "%s: status %u\n", what, status);
  std::exit(2);
}

// Opens a relay that sets the number.
static hagzimot opened(const Bytes &schema, const std::string &root) {
  hagzimot handle{nullptr};
  auto text = [](const char *it) { return reinterpret_cast<const uint8_t *>(it); };
  auto status = hagzimot_open(&handle, schema.data(), schema.size(), text(root.data()), root.size(), text(SET), std::strlen(SET), 0,
                              out.data(), out.size(), &out_len);
  if (status != HAGZIMOT_OK)
    stop("open", status);
  return handle;
}

static void relay(hagzimot *handle, const Stream &stream, size_t from, size_t to) {
  auto status = hagzimot_relay(handle, stream.at(from), stream.size(from, to), out.data(), out.size(), &out_len, lines.data(),
                               lines.size(), &log_len);
  if (status != HAGZIMOT_OK)
    stop("relay", status);
}

static void write_canonical(const Stream &stream, size_t i) {
  size_t words = 0;
  auto cells = reinterpret_cast<uint8_t(*)[8]>(out.data());
  auto status = hagzimot_canonical(stream.at(i), stream.size(i, i + 1), WORDS, LEVELS, cells, out.size() / 8, &words);
  if (status != HAGZIMOT_OK)
    stop("canonical", status);
  out_len = 8 * words;
}

static capnp::FlatArrayMessageReader reader_of(const Stream &stream, size_t i) {
  capnp::ReaderOptions options;
  options.traversalLimitInWords = WORDS;
  auto words = kj::arrayPtr(stream.words.data() + stream.starts[i] / 8, stream.size(i, i + 1) / 8);
  return capnp::FlatArrayMessageReader(words, options);
}

// Writes the only segment of a canonical message.
static void write_words(kj::Array<capnp::word> words) {
  kj::ArrayOutputStream to(kj::arrayPtr(out.data(), out.size()));
  kj::ArrayPtr<const capnp::word> segment = words;
  capnp::writeMessage(to, kj::arrayPtr(&segment, 1));
  out_len = to.getArray().size();
}

// Copies a message by libcapnp, sets the number, and writes it, in canonical form or as it is.
static void edit(const Stream &stream, size_t i, bool is_canonical) {
  auto message = reader_of(stream, i);
  capnp::MallocMessageBuilder built(kj::arrayPtr(scratch.data(), scratch.size()));
  built.setRoot(message.getRoot<capnp::AnyPointer>());
  auto data = built.getRoot<capnp::AnyStruct>().getDataSection();
  data[0] = 7;
  data[1] = 0;
  if (is_canonical)
    return write_words(built.getRoot<capnp::AnyStruct>().asReader().canonicalize());
  kj::ArrayOutputStream to(kj::arrayPtr(out.data(), out.size()));
  capnp::writeMessage(to, built);
  out_len = to.getArray().size();
}

// A work over a stream, and what it took for a message in each round.
struct Work {
  const char *name;
  std::function<void()> run;
  std::vector<double> taken;
};

// Nanoseconds that this thread had a processor; other programs don't count.
static double now() {
  timespec at;
  clock_gettime(CLOCK_THREAD_CPUTIME_ID, &at);
  return double(at.tv_sec) * 1e9 + double(at.tv_nsec);
}

static void measure(std::vector<Work> &works, size_t messages, int rounds) {
  for (int round = 0; round <= rounds; round++)
    for (auto &work : works) {
      double from = now();
      work.run();
      double taken = (now() - from) / double(messages);
      // The first round warms up.
      if (round > 0)
        work.taken.push_back(taken);
    }
}

static void report(const std::string &name, std::vector<Work> &works) {
  for (auto &work : works) {
    std::sort(work.taken.begin(), work.taken.end());
    std::printf("| %s | %s | %.0f | %.0f |\n", name.c_str(), work.name, work.taken[work.taken.size() / 2], work.taken[0]);
  }
}

// Whether both libraries write the same bytes for each message.
static bool agree(hagzimot *handle, const Stream &stream) {
  for (size_t i = 0; i < stream.count(); i++) {
    relay(handle, stream, i, i + 1);
    Bytes ours(out.begin(), out.begin() + long(out_len));
    edit(stream, i, true);
    if (ours.size() != out_len || std::memcmp(ours.data(), out.data(), out_len) != 0)
      return false;
  }
  return true;
}

static bool measure_stream(const std::string &folder, const std::string &name, const std::string &root, int rounds) {
  Bytes schema = bytes_of(folder + "/bench.json");
  Stream stream(bytes_of(folder + "/" + name + ".framed"));
  hagzimot handle = opened(schema, root);
  if (!agree(&handle, stream)) {
    std::printf("%s: the libraries write different messages\n", name.c_str());
    return false;
  }
  size_t count = stream.count();
  auto each = [&](auto call) { return [=] { for (size_t i = 0; i < count; i++) call(i); }; };
  std::vector<Work> works{
      {"libhagzimot: set, canonical, one message a call", each([&](size_t i) { relay(&handle, stream, i, i + 1); }), {}},
      {"libhagzimot: the same, 100 messages a call",
       [&] { for (size_t i = 0; i < count; i += BATCH) relay(&handle, stream, i, std::min(i + BATCH, count)); }, {}},
      {"libcapnp: copy, set, canonicalize, write", each([&](size_t i) { edit(stream, i, true); }), {}},
      {"libcapnp: copy, set, write, not canonical", each([&](size_t i) { edit(stream, i, false); }), {}},
      {"libhagzimot: canonical copy", each([&](size_t i) { write_canonical(stream, i); }), {}},
      {"libcapnp: canonicalize, write", each([&](size_t i) {
         auto message = reader_of(stream, i);
         write_words(message.getRoot<capnp::AnyStruct>().canonicalize());
       }), {}},
  };
  measure(works, count, rounds);
  report(name + ", " + std::to_string(stream.size(0, count) / count) + " bytes", works);
  hagzimot_close(&handle);
  return true;
}

static void measure_open(const std::string &folder, int rounds) {
  Bytes schema = bytes_of(folder + "/bench.json");
  auto run = [&] {
    for (int i = 0; i < 100; i++) {
      hagzimot handle = opened(schema, "Order");
      hagzimot_close(&handle);
    }
  };
  std::vector<Work> works{{"libhagzimot: open and close", run, {}}};
  measure(works, 100, rounds);
  report("bench.json, " + std::to_string(schema.size()) + " bytes", works);
}

int main(int count, char **words) {
  if (count < 2)
    return 2;
  int rounds = count > 2 ? std::max(1, std::atoi(words[2])) : 15;
  const std::pair<const char *, const char *> streams[] = {{"small", "Small"}, {"nested", "Order"}, {"large", "Large"}, {"far", "Order"}};
  std::printf("| stream | work | median ns | least ns |\n|---|---|---|---|\n");
  bool is_well = true;
  for (auto [name, root] : streams)
    is_well = measure_stream(words[1], name, root, rounds) && is_well;
  measure_open(words[1], rounds);
  return is_well ? 0 : 1;
}
