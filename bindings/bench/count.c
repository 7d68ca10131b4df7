/* Relays the first messages of a stream a number of times, for count.py.

   usage: count SCHEMA ROOT STREAM MESSAGES BATCH ROUNDS     (BATCH: messages of a call; 0: canonical forms, without a relay) */
#include <hagzimot.h>
#include <stdio.h>
#include <stdlib.h>
#include <string.h>

static const char *const calls = "{\"calls\": [{\"path\": [\"a\"], \"verb\": \"set\", \"value\": {\"number\": 7}}]}";
static uint8_t schema[1 << 16], in[1 << 24], out[1 << 24], lines[1 << 20], text[4096];
static size_t starts[1 << 16];

static size_t read(const char *path, uint8_t *to, size_t cap) {
  FILE *file = fopen(path, "rb");
  if (file == NULL)
    exit(2);
  size_t len = fread(to, 1, cap, file);
  fclose(file);
  return len;
}

static size_t word_at(const uint8_t *at) {
  return at[0] | (size_t)at[1] << 8 | (size_t)at[2] << 16 | (size_t)at[3] << 24;
}

/* Where each message begins, and the last ends. */
static int split(size_t len, int most) {
  int count = 0;
  size_t at = 0;
  while (at < len && count < most) {
    size_t segments = word_at(in + at) + 1, words = (segments + 2) / 2;
    for (size_t i = 1; i <= segments; i++)
      words += word_at(in + at + 4 * i);
    starts[count++] = at;
    at += 8 * words;
  }
  starts[count] = at;
  return count;
}

int main(int count, char **given) {
  if (count != 7)
    return 2;
  hagzimot handle = {0};
  size_t schema_len = read(given[1], schema, sizeof schema), len, log_len;
  int messages = split(read(given[3], in, sizeof in), atoi(given[4])), batch = atoi(given[5]), rounds = atoi(given[6]);
  if (hagzimot_open(&handle, schema, schema_len, (const uint8_t *)given[2], strlen(given[2]), (const uint8_t *)calls, strlen(calls), 0,
                    text, sizeof text, &len) != HAGZIMOT_OK)
    return 1;
  int step = batch ? batch : 1;
  for (int round = 0; round < rounds; round++)
    for (int i = 0; i < messages; i += step) {
      int end = i + step < messages ? i + step : messages;
      const uint8_t *from = in + starts[i];
      size_t size = starts[end] - starts[i];
      hagzimot_status status =
          batch ? hagzimot_relay(&handle, from, size, out, sizeof out, &len, lines, sizeof lines, &log_len)
                : hagzimot_canonical(from, size, 8388608, 64, (uint8_t(*)[8])out, sizeof out / 8, &len);
      if (status != HAGZIMOT_OK)
        return 1;
    }
  hagzimot_close(&handle);
  return 0;
}
