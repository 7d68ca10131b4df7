/* Calls each function of hagzimot.h: with good arguments and bad ones, over memory that ends at a page that can't be read, and with each
   allocation refused.

   usage: c_calls calls | pages COUNT | growths

   `growths` marks each call of the library on standard error by '[' and ']', as refuse.c counts them. Ends with status 0 if all is
   as it must be, else with the line of the first check that fails. */
#define _GNU_SOURCE
#include "hagzimot.h"
#include <stdio.h>
#include <stdlib.h>
#include <string.h>
#include <sys/mman.h>
#include <unistd.h>

#define CHECK(condition)                                                                                                            \
  do {                                                                                                                              \
    if (!(condition)) {                                                                                                             \
      printf("c_calls.c, line %d: %s\n", __LINE__, #condition);                                                                     \
      return 1;                                                                                                                     \
    }                                                                                                                               \
  } while (0)
#define TEXT(text) (const uint8_t *)(text), strlen(text)
#define OUT out, sizeof out, &out_len
#define LOG lines, sizeof lines, &log_len

static const char *const schema = "[{\"id\":1,\"name\":\"P\",\"data\":1,\"pointers\":1,\"fields\":["
                                  "{\"name\":\"a\",\"type\":\"UInt16\",\"offset\":0},{\"name\":\"t\",\"type\":\"Text\",\"offset\":0}]}]";
static const char *const other = "[{\"id\":1,\"name\":\"P\",\"data\":1,\"pointers\":1,\"fields\":["
                                 "{\"name\":\"a\",\"type\":\"UInt16\",\"offset\":1},{\"name\":\"t\",\"type\":\"Text\",\"offset\":0}]}]";
static const char *const calls = "{\"calls\":[{\"path\":[\"a\"],\"verb\":\"set\",\"value\":{\"number\":9}},{\"path\":[\"t\"],\"verb\":"
                                 "\"get\"}],\"words\":1000}";
static const char *const no_call = "{\"calls\":[{\"path\":[\"t\"],\"verb\":\"get\"}]}";
static const char *const sentence = "P: field \"a\" lies elsewhere in the newer schema";
/* (a = 7, t = "hi"), framed, in canonical form; and with a = 9. */
static const uint8_t message[] = {0, 0, 0, 0, 4, 0, 0, 0, 0, 0, 0, 0, 1, 0, 1, 0, 7,   0,   0, 0, 0, 0, 0, 0,
                                  1, 0, 0, 0, 26, 0, 0, 0, 'h', 'i', 0, 0, 0, 0, 0, 0};
static const uint8_t edited[] = {0, 0, 0, 0, 4, 0, 0, 0, 0, 0, 0, 0, 1, 0, 1, 0, 9,   0,   0, 0, 0, 0, 0, 0,
                                 1, 0, 0, 0, 26, 0, 0, 0, 'h', 'i', 0, 0, 0, 0, 0, 0};
/* (a = 7), with a second data word of zeros, and its canonical form. */
static const uint8_t wide[] = {0, 0, 0, 0, 3, 0, 0, 0, 0, 0, 0, 0, 2, 0, 0, 0, 7, 0, 0, 0, 0, 0, 0, 0, 0, 0, 0, 0, 0, 0, 0, 0};
static const uint8_t narrow[] = {0, 0, 0, 0, 2, 0, 0, 0, 0, 0, 0, 0, 1, 0, 0, 0, 7, 0, 0, 0, 0, 0, 0, 0};

static uint8_t out[4096], lines[4096];
static size_t out_len, log_len;

static int opens(void) {
  hagzimot handle = {0};
  CHECK(hagzimot_version() == HAGZIMOT_VERSION);
  CHECK(hagzimot_open(&handle, TEXT("no schema"), TEXT("P"), TEXT(calls), 0, OUT) == HAGZIMOT_REFUSED);
  CHECK(out_len > 8 && memcmp(out, "schema: ", 8) == 0 && handle.at == NULL);
  CHECK(hagzimot_open(&handle, TEXT("no schema"), TEXT("P"), TEXT(calls), 0, out, 3, &log_len) == HAGZIMOT_REFUSED && log_len == out_len);
  CHECK(hagzimot_open(&handle, TEXT(schema), TEXT("Q"), TEXT(calls), 0, OUT) == HAGZIMOT_REFUSED);
  CHECK(hagzimot_open(&handle, TEXT(schema), TEXT("P"), TEXT("{"), 0, OUT) == HAGZIMOT_REFUSED && memcmp(out, "calls: ", 7) == 0);
  CHECK(hagzimot_open(&handle, TEXT(schema), TEXT("\xff"), TEXT(calls), 0, OUT) == HAGZIMOT_FORM);
  CHECK(hagzimot_open(&handle, TEXT(schema), TEXT("P"), TEXT(calls), 8, OUT) == HAGZIMOT_FORM && handle.at == NULL);
  CHECK(hagzimot_open(&handle, TEXT(schema), NULL, 0, TEXT(calls), 0, OUT) == HAGZIMOT_OK && handle.at != NULL);
  void *at = handle.at;
  CHECK(hagzimot_open(&handle, TEXT(schema), TEXT("P"), TEXT(calls), 0, OUT) == HAGZIMOT_OPEN && handle.at == at);
  hagzimot_close(&handle);
  CHECK(handle.at == NULL);
  hagzimot_close(&handle);
  hagzimot_close(NULL);
  for (int i = 0; i < 100; i++) {
    CHECK(hagzimot_open(&handle, TEXT(schema), TEXT("1"), TEXT(calls), 0, OUT) == HAGZIMOT_OK);
    hagzimot_close(&handle);
  }
  return 0;
}

static int relays(void) {
  hagzimot handle = {0};
  uint8_t both[2 * sizeof message];
  memcpy(both, message, sizeof message);
  memcpy(both + sizeof message, message, sizeof message);
  CHECK(hagzimot_relay(&handle, message, sizeof message, OUT, LOG) == HAGZIMOT_CLOSED && out_len == 0 && log_len == 0);
  CHECK(hagzimot_take(&handle, OUT, LOG) == HAGZIMOT_CLOSED);
  CHECK(hagzimot_show(&handle, message, sizeof message, OUT) == HAGZIMOT_CLOSED);
  CHECK(hagzimot_open(&handle, TEXT(schema), TEXT("P"), TEXT(calls), 0, OUT) == HAGZIMOT_OK);
  CHECK(hagzimot_relay(&handle, message, sizeof message, OUT, LOG) == HAGZIMOT_OK);
  CHECK(out_len == sizeof edited && memcmp(out, edited, sizeof edited) == 0);
  const char *line = "message 1 written; done; \"hi\"\n";
  CHECK(log_len == strlen(line) && memcmp(lines, line, log_len) == 0);
  CHECK(hagzimot_relay(&handle, both, sizeof both, OUT, LOG) == HAGZIMOT_OK && out_len == 2 * sizeof edited);
  CHECK(memcmp(out + sizeof edited, edited, sizeof edited) == 0);
  memset(out, 0, sizeof out);
  CHECK(hagzimot_relay(&handle, both, sizeof both, out, out_len - 1, &out_len, LOG) == HAGZIMOT_ROOM && out_len == 2 * sizeof edited);
  CHECK(out[0] == 0 && out[4] == 0);
  CHECK(hagzimot_take(&handle, out, out_len, &out_len, LOG) == HAGZIMOT_OK && memcmp(out + sizeof edited, edited, sizeof edited) == 0);
  CHECK(hagzimot_relay(&handle, both, sizeof both - 8, OUT, LOG) == HAGZIMOT_FRAMING && out_len == sizeof edited);
  CHECK(hagzimot_relay(&handle, NULL, 0, OUT, LOG) == HAGZIMOT_OK && out_len == 0 && log_len == 0);
  CHECK(hagzimot_show(&handle, message, sizeof message, OUT) == HAGZIMOT_OK);
  const char *text = "(a = 7, t = \"hi\")";
  CHECK(out_len == strlen(text) && memcmp(out, text, out_len) == 0);
  CHECK(hagzimot_show(&handle, message, sizeof message, out, 3, &out_len) == HAGZIMOT_ROOM && out_len == strlen(text));
  CHECK(hagzimot_take(&handle, OUT, LOG) == HAGZIMOT_OK && out_len == strlen(text) && log_len == 0);
  CHECK(hagzimot_show(&handle, message, 11, OUT) == HAGZIMOT_FRAMING && hagzimot_show(&handle, NULL, 0, OUT) == HAGZIMOT_FRAMING);
  hagzimot_close(&handle);
  return 0;
}

static int frames(void) {
  static uint8_t words[16][8];
  size_t count = 0;
  CHECK(hagzimot_is_canonical(message, sizeof message, 1000, 64) == HAGZIMOT_OK);
  CHECK(hagzimot_is_canonical(wide, sizeof wide, 1000, 64) == HAGZIMOT_NO);
  CHECK(hagzimot_is_canonical(wide, sizeof wide - 1, 1000, 64) == HAGZIMOT_FRAMING);
  CHECK(hagzimot_is_canonical(message, sizeof message, 3, 64) == HAGZIMOT_FRAMING);
  CHECK(hagzimot_is_canonical(message, sizeof message, 1000, 0) == HAGZIMOT_VALUE);
  CHECK(hagzimot_canonical(wide, sizeof wide, 1000, 64, words, 16, &count) == HAGZIMOT_OK);
  CHECK(8 * count == sizeof narrow && memcmp(words, narrow, sizeof narrow) == 0);
  CHECK(hagzimot_canonical(wide, sizeof wide, 1000, 64, words, 2, &count) == HAGZIMOT_ROOM && count == 0);
  CHECK(hagzimot_canonical(wide, sizeof wide, 1000, 64, NULL, 0, &count) == HAGZIMOT_ROOM);
  CHECK(hagzimot_canonical(wide, 11, 1000, 64, words, 16, &count) == HAGZIMOT_FRAMING);
  return 0;
}

/* Messages that aren't shown: cut, out of kind, or too deep. Each has its status, and the next message is shown. */
static int shows(void) {
  static const char *const tree = "[{\"id\":1,\"name\":\"T\",\"data\":1,\"pointers\":1,\"fields\":["
                                  "{\"name\":\"n\",\"type\":{\"struct\":1},\"offset\":0}]}]";
  static const char *const few_levels = "{\"calls\":[],\"words\":1000,\"nesting\":3}";
  /* The root's pointer is that of a list, of a capability, and leads out of the message; so does that of the text. */
  static const uint8_t places[][2] = {{8, 1}, {8, 3}, {8, 0xfc}, {24, 0}, {24, 3}, {24, 101}};
  hagzimot handle = {0};
  uint8_t in[8 * 7] = {0};
  CHECK(hagzimot_open(&handle, TEXT(schema), TEXT("P"), TEXT(no_call), 0, OUT) == HAGZIMOT_OK);
  for (size_t len = 0; len < sizeof message; len++)
    CHECK(hagzimot_show(&handle, message, len, OUT) == HAGZIMOT_FRAMING && out_len == 0);
  for (size_t i = 0; i < sizeof places / sizeof *places; i++) {
    memcpy(in, message, sizeof message);
    in[places[i][0]] = places[i][1];
    hagzimot_status status = hagzimot_show(&handle, in, sizeof message, OUT);
    CHECK(status == HAGZIMOT_VALUE && out_len == 0);
    CHECK(hagzimot_show(&handle, message, sizeof message, OUT) == HAGZIMOT_OK && out_len == 17);
  }
  hagzimot_close(&handle);
  /* A chain of structs without data, each the only pointer of the one before. */
  CHECK(hagzimot_open(&handle, TEXT(tree), TEXT("T"), TEXT(few_levels), 0, OUT) == HAGZIMOT_OK);
  memset(in, 0, sizeof in);
  for (int levels = 1; levels <= 5; levels++) {
    in[4] = (uint8_t)(levels + 1);
    in[8 * levels + 6] = 1;
    hagzimot_status status = hagzimot_show(&handle, in, 8 * (size_t)(levels + 2), OUT);
    CHECK(status == (levels <= 3 ? HAGZIMOT_OK : HAGZIMOT_VALUE));
  }
  hagzimot_close(&handle);
  return 0;
}

static int compares(void) {
  CHECK(hagzimot_compatible(TEXT(schema), TEXT(schema), NULL, 0, TEXT("P"), OUT) == HAGZIMOT_OK && out_len == 0);
  CHECK(hagzimot_compatible(TEXT(schema), TEXT(other), NULL, 0, TEXT("P"), OUT) == HAGZIMOT_NO);
  CHECK(out_len == strlen(sentence) && memcmp(out, sentence, out_len) == 0);
  CHECK(hagzimot_compatible(TEXT(schema), TEXT("x"), NULL, 0, TEXT("P"), OUT) == HAGZIMOT_REFUSED && memcmp(out, "newer: ", 7) == 0);
  CHECK(hagzimot_compatible(TEXT(schema), TEXT(other), TEXT("{}"), TEXT("P"), OUT) == HAGZIMOT_REFUSED && memcmp(out, "renames: ", 9) == 0);
  CHECK(hagzimot_compatible(TEXT(schema), TEXT(other), NULL, 0, TEXT("\xff"), OUT) == HAGZIMOT_FORM);
  return 0;
}

static int points(void) {
  hagzimot handle = {0};
  CHECK(hagzimot_open(NULL, TEXT(schema), TEXT("P"), TEXT(calls), 0, OUT) == HAGZIMOT_POINTER);
  CHECK(hagzimot_open(&handle, NULL, 1, TEXT("P"), TEXT(calls), 0, OUT) == HAGZIMOT_POINTER);
  CHECK(hagzimot_open(&handle, TEXT(schema), TEXT("P"), TEXT(calls), 0, out, sizeof out, NULL) == HAGZIMOT_POINTER);
  CHECK(hagzimot_open(&handle, TEXT(schema), TEXT("P"), TEXT(calls), 0, OUT) == HAGZIMOT_OK);
  CHECK(hagzimot_relay(&handle, NULL, 8, OUT, LOG) == HAGZIMOT_POINTER);
  CHECK(hagzimot_relay(&handle, message, sizeof message, NULL, 8, &out_len, LOG) == HAGZIMOT_POINTER);
  CHECK(hagzimot_relay(&handle, message, SIZE_MAX, OUT, LOG) == HAGZIMOT_POINTER);
  CHECK(hagzimot_relay(&handle, out, 8, OUT, LOG) == HAGZIMOT_POINTER);
  CHECK(hagzimot_relay(&handle, message, sizeof message, out, 64, &out_len, out + 63, 8, &log_len) == HAGZIMOT_POINTER);
  CHECK(hagzimot_relay(&handle, message, sizeof message, OUT, lines, sizeof lines, &out_len) == HAGZIMOT_POINTER);
  CHECK(hagzimot_relay(&handle, message, sizeof message, out, 64, &out_len, out + 64, 64, &log_len) == HAGZIMOT_OK);
  CHECK(hagzimot_relay(&handle, message, sizeof message, NULL, 0, &out_len, NULL, 0, &log_len) == HAGZIMOT_ROOM && out_len == sizeof edited);
  CHECK(hagzimot_take(&handle, OUT, NULL, 1, &log_len) == HAGZIMOT_POINTER);
  CHECK(hagzimot_show(&handle, message, sizeof message, out, 8, NULL) == HAGZIMOT_POINTER);
  CHECK(hagzimot_canonical(message, sizeof message, 10, 64, (uint8_t(*)[8])out, SIZE_MAX / 8 + 1, &out_len) == HAGZIMOT_POINTER);
  CHECK(hagzimot_is_canonical(NULL, 1, 10, 64) == HAGZIMOT_POINTER);
  CHECK(hagzimot_compatible(TEXT(schema), NULL, 4, NULL, 0, TEXT("P"), OUT) == HAGZIMOT_POINTER);
  hagzimot_close(&handle);
  return 0;
}

/* The end of memory behind which a page can't be read or written. */
static uint8_t *end_of_pages(size_t pages) {
  size_t page = (size_t)sysconf(_SC_PAGESIZE);
  uint8_t *at = mmap(NULL, (pages + 1) * page, PROT_READ | PROT_WRITE, MAP_PRIVATE | MAP_ANONYMOUS, -1, 0);
  if (at == MAP_FAILED || mprotect(at + pages * page, page, PROT_NONE) != 0)
    exit(99);
  return at + pages * page;
}

static uint64_t state = 1;

static size_t below(size_t bound) {
  state = state * 6364136223846793005u + 1442695040888963407u;
  return (size_t)(state >> 33) % bound;
}

/* Messages with a few bytes that are others, cut anywhere, and output of any length. What is relayed in canonical form is canonical. */
static int pages(int count) {
  uint8_t *in_end = end_of_pages(1), *out_end = end_of_pages(1), *log_end = end_of_pages(1);
  hagzimot handle = {0};
  int answered = 0;
  CHECK(hagzimot_open(&handle, TEXT(schema), TEXT("P"), TEXT(calls), 0, OUT) == HAGZIMOT_OK);
  for (int i = 0; i < count; i++) {
    const uint8_t *from = below(2) ? message : wide;
    size_t len = below(8) ? (from == message ? sizeof message : sizeof wide) : below(sizeof wide);
    uint8_t *in = in_end - len;
    memcpy(in, from, len);
    for (size_t change = below(4); len != 0 && change > 0; change--)
      in[below(len)] = (uint8_t)(below(2) ? below(256) : 1u << below(8));
    size_t room = below(4) ? 256 : below(64), log_room = below(4) ? 256 : below(64);
    size_t words = below(4) ? 16 : below(8), made = 0;
    uint8_t(*cells)[8] = (uint8_t(*)[8])(out_end - 8 * words);
    hagzimot_status status = hagzimot_canonical(in, len, 1000, 64, cells, words, &made);
    if (status == HAGZIMOT_OK)
      CHECK(hagzimot_is_canonical(*cells, 8 * made, 1000, 64) == HAGZIMOT_OK);
    hagzimot_status is = hagzimot_is_canonical(in, len, 1000, 64);
    CHECK(is == HAGZIMOT_OK || is == HAGZIMOT_NO || is == HAGZIMOT_VALUE || is == HAGZIMOT_FRAMING);
    CHECK((is == HAGZIMOT_FRAMING) == (status == HAGZIMOT_FRAMING));
    status = hagzimot_relay(&handle, in, len, out_end - room, room, &out_len, log_end - log_room, log_room, &log_len);
    CHECK(status == HAGZIMOT_OK || status == HAGZIMOT_ROOM || status == HAGZIMOT_FRAMING);
    if (status == HAGZIMOT_OK && out_len != 0) {
      CHECK(hagzimot_is_canonical(out_end - room, out_len, 1000, 64) == HAGZIMOT_OK);
      answered++;
    }
    status = hagzimot_show(&handle, in, len, out_end - room, room, &out_len);
    CHECK(status != HAGZIMOT_CLOSED && status != HAGZIMOT_POINTER && status != HAGZIMOT_MEMORY);
  }
  hagzimot_close(&handle);
  CHECK(answered > count / 20);
  printf("%d messages, of which %d were answered\n", count, answered);
  return 0;
}

#define MARKED(status, call)                                                                                                        \
  do {                                                                                                                              \
    if (write(2, "[", 1) != 1)                                                                                                      \
      return 1;                                                                                                                     \
    status = call;                                                                                                                  \
    if (write(2, "]", 1) != 1)                                                                                                      \
      return 1;                                                                                                                     \
  } while (0)

/* Each call is done or lacks memory; after a lack the next call does its work. */
static int growths(void) {
  hagzimot handle = {0};
  hagzimot_status status;
  MARKED(status, hagzimot_open(&handle, TEXT(schema), TEXT("P"), TEXT(calls), 0, OUT));
  CHECK(status == HAGZIMOT_OK || (status == HAGZIMOT_MEMORY && handle.at == NULL));
  if (status != HAGZIMOT_OK)
    CHECK(hagzimot_open(&handle, TEXT(schema), TEXT("P"), TEXT(calls), 0, OUT) == HAGZIMOT_OK);
  MARKED(status, hagzimot_relay(&handle, message, sizeof message, OUT, LOG));
  CHECK(status == HAGZIMOT_OK || status == HAGZIMOT_MEMORY);
  CHECK(status != HAGZIMOT_OK || (out_len == sizeof edited && memcmp(out, edited, out_len) == 0));
  CHECK(hagzimot_relay(&handle, message, sizeof message, OUT, LOG) == HAGZIMOT_OK && memcmp(out, edited, sizeof edited) == 0);
  MARKED(status, hagzimot_show(&handle, message, sizeof message, OUT));
  CHECK(status == HAGZIMOT_OK || status == HAGZIMOT_MEMORY);
  hagzimot_close(&handle);
  MARKED(status, hagzimot_open(&handle, TEXT("no schema"), TEXT("P"), TEXT(no_call), 0, OUT));
  CHECK(status == HAGZIMOT_REFUSED || status == HAGZIMOT_MEMORY);
  MARKED(status, hagzimot_compatible(TEXT(schema), TEXT(other), NULL, 0, TEXT("P"), OUT));
  CHECK((status == HAGZIMOT_NO && out_len == strlen(sentence)) || status == HAGZIMOT_MEMORY);
  return 0;
}

int main(int count, char **words) {
  if (count == 2 && strcmp(words[1], "calls") == 0)
    return opens() || relays() || shows() || frames() || compares() || points();
  if (count == 3 && strcmp(words[1], "pages") == 0)
    return pages(atoi(words[2]));
  if (count == 2 && strcmp(words[1], "growths") == 0)
    return growths();
  return 2;
}
