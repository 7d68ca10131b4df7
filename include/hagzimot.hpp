// libhagzimot for C++17: hagzimot.h with owners, strings and exceptions. Header only; link with -lhagzimot.
#ifndef HAGZIMOT_HPP
#define HAGZIMOT_HPP

#include "hagzimot.h"

#include <optional>
#include <stdexcept>
#include <string>
#include <string_view>
#include <utility>
#include <vector>

namespace hagzimot_cpp {

using Bytes = std::vector<uint8_t>;

// Bytes that a call reads, of a vector, a string or an array.
struct View {
  const uint8_t *data = nullptr;
  size_t size = 0;
  View() = default;
  View(const uint8_t *data, size_t size) : data(data), size(size) {}
  View(const Bytes &bytes) : data(bytes.data()), size(bytes.size()) {}
  View(std::string_view text) : data(reinterpret_cast<const uint8_t *>(text.data())), size(text.size()) {}
  View(const std::string &text) : View(std::string_view(text)) {}
  View(const char *text) : View(std::string_view(text)) {}
};

// The status of a call that failed, with the text that says why, if there is one.
class Error : public std::runtime_error {
public:
  Error(hagzimot_status status, const std::string &text) : std::runtime_error(text), status_(status) {}
  hagzimot_status status() const noexcept { return status_; }

private:
  hagzimot_status status_;
};

// Returns what a status says.
inline const char *text_of(hagzimot_status status) noexcept {
  switch (status) {
  case HAGZIMOT_OK: return "done";
  case HAGZIMOT_MEMORY: return "memory: an allocation was refused, or a value is too deep";
  case HAGZIMOT_CLOSED: return "handle: it holds nothing";
  case HAGZIMOT_OPEN: return "handle: it holds something already";
  case HAGZIMOT_ROOM: return "output: it is too short";
  case HAGZIMOT_REFUSED: return "schema: it is refused";
  case HAGZIMOT_FRAMING: return "input: it doesn't begin with a message";
  case HAGZIMOT_VALUE: return "message: it has no value within the limits";
  case HAGZIMOT_SIZE: return "message: it is too large";
  case HAGZIMOT_NO: return "no";
  case HAGZIMOT_FORM: return "arguments: a flag is unknown, or the root is not UTF-8";
  case HAGZIMOT_POINTER: return "arguments: a pointer is NULL, or memory overlaps";
  default: return "unknown status";
  }
}

// Throws if a call failed.
inline void check(hagzimot_status status) {
  if (status != HAGZIMOT_OK)
    throw Error(status, text_of(status));
}

// The messages that a relay wrote, and the line of its log for each message.
struct Answers {
  Bytes out;
  std::string log;
};

// A run that was ended by a status, with the answers to the messages before.
class Stopped : public Error {
public:
  Stopped(hagzimot_status status, Answers answers) : Error(status, text_of(status)), answers_(std::move(answers)) {}
  const Answers &answers() const noexcept { return answers_; }

private:
  Answers answers_;
};

// Returns the version of the library's interface.
inline uint32_t version() noexcept { return hagzimot_version(); }

// A relay. It moves and isn't copied. It is used by one call at a time, in the thread that made it.
class Relay {
public:
  Relay(View schema, View root, View calls, uint32_t flags = 0) {
    std::string text(4096, '\0');
    size_t len = 0;
    auto status = hagzimot_open(&handle_, schema.data, schema.size, root.data, root.size, calls.data, calls.size, flags,
                                reinterpret_cast<uint8_t *>(text.data()), text.size(), &len);
    if (status == HAGZIMOT_REFUSED)
      throw Error(status, text.substr(0, len < text.size() ? len : text.size()));
    check(status);
  }
  ~Relay() { hagzimot_close(&handle_); }
  Relay(Relay &&other) noexcept : handle_(std::exchange(other.handle_, hagzimot{nullptr})) {}
  Relay &operator=(Relay &&other) noexcept {
    std::swap(handle_, other.handle_);
    return *this;
  }
  Relay(const Relay &) = delete;
  Relay &operator=(const Relay &) = delete;

  // Answers the messages of the input. If the input, or its rest, doesn't begin with a message, this throws Stopped.
  Answers relay(View in) {
    Answers answers;
    answers.out.resize(in.size + 256);
    answers.log.resize(256);
    size_t out_len = 0, log_len = 0;
    auto log = [&] { return reinterpret_cast<uint8_t *>(answers.log.data()); };
    auto status = hagzimot_relay(&handle_, in.data, in.size, answers.out.data(), answers.out.size(), &out_len, log(),
                                 answers.log.size(), &log_len);
    const bool is_cut = out_len > answers.out.size() || log_len > answers.log.size();
    answers.out.resize(out_len);
    answers.log.resize(log_len);
    if (is_cut) {
      auto taken = hagzimot_take(&handle_, answers.out.data(), out_len, &out_len, log(), log_len, &log_len);
      status = status == HAGZIMOT_ROOM ? taken : status;
    }
    if (status != HAGZIMOT_OK)
      throw Stopped(status, std::move(answers));
    return answers;
  }

  // Returns the record of the first message as text.
  std::string show(View in) {
    std::string text(1024, '\0');
    size_t len = 0, none = 0;
    auto data = [&] { return reinterpret_cast<uint8_t *>(text.data()); };
    auto status = hagzimot_show(&handle_, in.data, in.size, data(), text.size(), &len);
    if (status == HAGZIMOT_ROOM) {
      text.resize(len);
      status = hagzimot_take(&handle_, data(), len, &len, nullptr, 0, &none);
    }
    check(status);
    text.resize(len);
    return text;
  }

private:
  hagzimot handle_{nullptr};
};

// The limits of following a message.
struct Limits {
  uint32_t words = 8'388'608;
  uint32_t levels = 64;
};

// Returns the canonical form of the first message, framed.
inline Bytes canonical(View in, Limits limits = {}) {
  std::vector<uint8_t> out(in.size + 16);
  size_t words = 0;
  auto cells = [&] { return reinterpret_cast<uint8_t(*)[8]>(out.data()); };
  auto status = hagzimot_canonical(in.data, in.size, limits.words, limits.levels, cells(), out.size() / 8, &words);
  if (status == HAGZIMOT_ROOM) {
    out.resize((size_t(limits.words) + 2) * 8);
    status = hagzimot_canonical(in.data, in.size, limits.words, limits.levels, cells(), out.size() / 8, &words);
  }
  check(status);
  out.resize(8 * words);
  return out;
}

// Returns whether the first message is canonical.
inline bool is_canonical(View in, Limits limits = {}) {
  auto status = hagzimot_is_canonical(in.data, in.size, limits.words, limits.levels);
  if (status == HAGZIMOT_NO)
    return false;
  check(status);
  return true;
}

// Returns the sentence of the first break between two versions of a schema; none if they are compatible.
inline std::optional<std::string> first_break(View older, View newer, View root = {}, View renames = {}) {
  std::string text(4096, '\0');
  size_t len = 0;
  auto status = hagzimot_compatible(older.data, older.size, newer.data, newer.size, renames.data, renames.size, root.data, root.size,
                                    reinterpret_cast<uint8_t *>(text.data()), text.size(), &len);
  text.resize(len < text.size() ? len : text.size());
  if (status == HAGZIMOT_NO)
    return text;
  if (status == HAGZIMOT_REFUSED)
    throw Error(status, text);
  check(status);
  return std::nullopt;
}

} // namespace hagzimot_cpp

#endif
