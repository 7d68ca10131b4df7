/* The functions of hagzimot.h: each looks at the pointers that it is given, and hands the call to the proved library. */
#include "hagzimot.h"

uint32_t hz_version(void);
uint32_t hz_open(hagzimot *handle, const uint8_t *schema, size_t schema_len, const uint8_t *root, size_t root_len,
                 const uint8_t *calls, size_t calls_len, uint32_t flags, uint8_t *text, size_t text_cap, size_t *text_len);
void hz_close(hagzimot *handle);
uint32_t hz_relay(hagzimot *handle, const uint8_t *in, size_t in_len, uint8_t *out, size_t out_cap, size_t *out_len, uint8_t *log,
                  size_t log_cap, size_t *log_len);
uint32_t hz_take(hagzimot *handle, uint8_t *out, size_t out_cap, size_t *out_len, uint8_t *log, size_t log_cap, size_t *log_len);
uint32_t hz_show(hagzimot *handle, const uint8_t *in, size_t in_len, uint8_t *out, size_t out_cap, size_t *out_len);
uint32_t hz_canonical(const uint8_t *in, size_t in_len, uint32_t words, uint32_t levels, uint8_t (*out)[8], size_t out_words,
                      size_t *words_len);
uint32_t hz_is_canonical(const uint8_t *in, size_t in_len, uint32_t words, uint32_t levels);
uint32_t hz_compatible(const uint8_t *older, size_t older_len, const uint8_t *newer, size_t newer_len, const uint8_t *renames,
                       size_t renames_len, const uint8_t *root, size_t root_len, uint8_t *text, size_t text_cap, size_t *text_len);

/* Memory of a call, and whether the call writes it. */
typedef struct span {
  const void *at;
  size_t len;
  int is_written;
} span;

#define READ(at, len) {(at), (len), 0}
#define WRITTEN(at, len) {(at), (len), 1}
#define ONE(at) {(at), sizeof *(at), 1}
#define CHECK(...)                                                                                                                  \
  do {                                                                                                                              \
    const span spans[] = {__VA_ARGS__};                                                                                             \
    if (!are_sound(spans, sizeof spans / sizeof *spans))                                                                            \
      return HAGZIMOT_POINTER;                                                                                                      \
  } while (0)

/* Whether two spans have no byte in common. */
static int are_apart(span a, span b) {
  uintptr_t first = (uintptr_t)a.at, second = (uintptr_t)b.at;
  return first <= second ? a.len <= second - first : b.len <= first - second;
}

/* Whether each span is there and ends in memory, and those that are written overlap no other. */
static int are_sound(const span *spans, size_t count) {
  for (size_t i = 0; i < count; i++) {
    if (spans[i].at == NULL ? spans[i].len != 0 : spans[i].len > UINTPTR_MAX - (uintptr_t)spans[i].at)
      return 0;
    for (size_t j = 0; j < i; j++)
      if ((spans[i].is_written || spans[j].is_written) && spans[i].len != 0 && spans[j].len != 0 && !are_apart(spans[i], spans[j]))
        return 0;
  }
  return 1;
}

uint32_t hagzimot_version(void) {
  return hz_version();
}

hagzimot_status hagzimot_open(hagzimot *handle, const uint8_t *schema, size_t schema_len, const uint8_t *root, size_t root_len,
                              const uint8_t *calls, size_t calls_len, uint32_t flags, uint8_t *text, size_t text_cap,
                              size_t *text_len) {
  CHECK(ONE(handle), READ(schema, schema_len), READ(root, root_len), READ(calls, calls_len), WRITTEN(text, text_cap), ONE(text_len));
  return hz_open(handle, schema, schema_len, root, root_len, calls, calls_len, flags, text, text_cap, text_len);
}

void hagzimot_close(hagzimot *handle) {
  if (handle != NULL)
    hz_close(handle);
}

hagzimot_status hagzimot_relay(hagzimot *handle, const uint8_t *in, size_t in_len, uint8_t *out, size_t out_cap, size_t *out_len,
                               uint8_t *log, size_t log_cap, size_t *log_len) {
  CHECK(ONE(handle), READ(in, in_len), WRITTEN(out, out_cap), ONE(out_len), WRITTEN(log, log_cap), ONE(log_len));
  return hz_relay(handle, in, in_len, out, out_cap, out_len, log, log_cap, log_len);
}

hagzimot_status hagzimot_take(hagzimot *handle, uint8_t *out, size_t out_cap, size_t *out_len, uint8_t *log, size_t log_cap,
                              size_t *log_len) {
  CHECK(ONE(handle), WRITTEN(out, out_cap), ONE(out_len), WRITTEN(log, log_cap), ONE(log_len));
  return hz_take(handle, out, out_cap, out_len, log, log_cap, log_len);
}

hagzimot_status hagzimot_show(hagzimot *handle, const uint8_t *in, size_t in_len, uint8_t *out, size_t out_cap, size_t *out_len) {
  CHECK(ONE(handle), READ(in, in_len), WRITTEN(out, out_cap), ONE(out_len));
  return hz_show(handle, in, in_len, out, out_cap, out_len);
}

hagzimot_status hagzimot_canonical(const uint8_t *in, size_t in_len, uint32_t words, uint32_t levels, uint8_t (*out)[8],
                                   size_t out_words, size_t *words_len) {
  if (out_words > SIZE_MAX / 8)
    return HAGZIMOT_POINTER;
  CHECK(READ(in, in_len), WRITTEN(out, 8 * out_words), ONE(words_len));
  return hz_canonical(in, in_len, words, levels, out, out_words, words_len);
}

hagzimot_status hagzimot_is_canonical(const uint8_t *in, size_t in_len, uint32_t words, uint32_t levels) {
  CHECK(READ(in, in_len));
  return hz_is_canonical(in, in_len, words, levels);
}

hagzimot_status hagzimot_compatible(const uint8_t *older, size_t older_len, const uint8_t *newer, size_t newer_len,
                                    const uint8_t *renames, size_t renames_len, const uint8_t *root, size_t root_len, uint8_t *text,
                                    size_t text_cap, size_t *text_len) {
  CHECK(READ(older, older_len), READ(newer, newer_len), READ(renames, renames_len), READ(root, root_len), WRITTEN(text, text_cap),
        ONE(text_len));
  return hz_compatible(older, older_len, newer, newer_len, renames, renames_len, root, root_len, text, text_cap, text_len);
}
