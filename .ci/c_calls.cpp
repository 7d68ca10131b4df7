// Uses hagzimot.hpp. Ends with status 0 if all is as it must be, else with the line of the first check that fails.
#include "hagzimot.hpp"
#include <cstdio>
#include <string>

#define CHECK(condition)                                                                                                            \
  do {                                                                                                                              \
    if (!(condition)) {                                                                                                             \
      std::printf("c_calls.cpp, line %d: %s\n", __LINE__, #condition);                                                              \
      return 1;                                                                                                                     \
    }                                                                                                                               \
  } while (0)

using namespace hagzimot_cpp;

template <class F> static hagzimot_status status_of(F call) {
  try {
    call();
  } catch (const Error &error) {
    return error.status();
  }
  return HAGZIMOT_OK;
}

int main() {
  const std::string schema = R"([{"id":1,"name":"P","data":1,"pointers":1,"fields":[
      {"name":"a","type":"UInt16","offset":0},{"name":"t","type":"Text","offset":0}]}])";
  const std::string other = R"([{"id":1,"name":"P","data":1,"pointers":1,"fields":[
      {"name":"a","type":"UInt16","offset":1},{"name":"t","type":"Text","offset":0}]}])";
  const std::string calls = R"({"calls":[{"path":["a"],"verb":"set","value":{"number":9}}]})";
  const Bytes wide = {0, 0, 0, 0, 3, 0, 0, 0, 0, 0, 0, 0, 2, 0, 0, 0, 7, 0, 0, 0, 0, 0, 0, 0, 0, 0, 0, 0, 0, 0, 0, 0};
  const Bytes narrow = {0, 0, 0, 0, 2, 0, 0, 0, 0, 0, 0, 0, 1, 0, 0, 0, 7, 0, 0, 0, 0, 0, 0, 0};
  Relay first(schema, "P", calls), relay(std::move(first));
  Answers answers = relay.relay(wide);
  CHECK(relay.show(answers.out) == "(a = 9)" && answers.log == "message 1 written; done\n");
  CHECK(status_of([&] { first.show(wide); }) == HAGZIMOT_CLOSED);
  Bytes many;
  for (int i = 0; i < 100; i++)
    many.insert(many.end(), wide.begin(), wide.end());
  CHECK(relay.relay(many).out.size() == 100 * narrow.size());
  CHECK(status_of([&] { relay.relay(View(wide.data(), 11)); }) == HAGZIMOT_FRAMING);
  try {
    relay.relay(View(many.data(), many.size() - 8));
    CHECK(false);
  } catch (const Stopped &stopped) {
    CHECK(stopped.answers().out.size() == 99 * narrow.size() && stopped.status() == HAGZIMOT_FRAMING);
  }
  CHECK(version() == HAGZIMOT_VERSION);
  CHECK(status_of([&] { Relay("[", "P", calls); }) == HAGZIMOT_REFUSED);
  CHECK(canonical(wide) == narrow && !is_canonical(wide) && is_canonical(narrow));
  CHECK(!first_break(schema, schema) && first_break(schema, other, "P") == "P: field \"a\" lies elsewhere in the newer schema");
  return 0;
}
