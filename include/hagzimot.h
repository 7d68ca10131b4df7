/* libhagzimot: relays, shows and compares Cap'n Proto messages in your process. docs/C.md is the guide.
 *
 * A slice is a pointer and then its length; NULL goes with the length 0 only. For each call these must hold:
 * - A pointer leads to as many bytes as its length says, and nobody else writes them during the call.
 * - Memory that the call writes (a handle, `out`, `log`, `text`, `*.._len`) overlaps nothing else of the call.
 * - A handle is all zeros before its first use: `hagzimot handle = {0};`. It isn't copied.
 * - A handle is used by one call at a time, and by the thread that opened it. Any number of handles are used beside each other.
 * The library tests for NULL and for overlaps, and answers HAGZIMOT_POINTER. It can't test the rest.
 *
 * No call keeps a pointer that it is given, changes its input, prints, opens a file, starts a thread, or ends the process.
 * Memory comes from malloc. A call gives all of it back, except what is in a handle, which hagzimot_close gives back.
 * A value of 1,024 levels of pointers takes 1 MiB of stack.
 */
#ifndef HAGZIMOT_H
#define HAGZIMOT_H

#include <stddef.h>
#include <stdint.h>

#ifdef __cplusplus
extern "C" {
#endif

/* The version of this header: raised if a call's meaning or type changes. */
#define HAGZIMOT_VERSION 1

/* Returns the version of the library, which is the header's if the two belong together. */
uint32_t hagzimot_version(void);

typedef uint32_t hagzimot_status;

enum {
  HAGZIMOT_OK = 0,
  /* malloc refused memory, or a value is too deep for the stack. */
  HAGZIMOT_MEMORY = 1,
  /* The handle holds nothing. */
  HAGZIMOT_CLOSED = 2,
  /* The handle holds something already. */
  HAGZIMOT_OPEN = 3,
  /* The output is too short: its length says how much is needed. The rest of the call is done. */
  HAGZIMOT_ROOM = 4,
  /* The schema, the calls or the renames are refused: the text says why. */
  HAGZIMOT_REFUSED = 5,
  /* The input, or the rest of it, doesn't begin with a message of so many words. */
  HAGZIMOT_FRAMING = 6,
  /* The message has no value within the limits, or a capability, or its root is a list, or a field can't be read. */
  HAGZIMOT_VALUE = 7,
  /* A message is too large to be answered or shown. */
  HAGZIMOT_SIZE = 8,
  /* The answer is no: the message isn't canonical, or the schemas aren't compatible. */
  HAGZIMOT_NO = 9,
  /* A flag is unknown, or the root's name is not UTF-8. */
  HAGZIMOT_FORM = 10,
  /* A pointer is NULL where it must not be, or memory that is written overlaps other memory of the call. */
  HAGZIMOT_POINTER = 11
};

/* What a schema is opened into. You own the struct, and the library what `at` leads to. */
typedef struct hagzimot {
  void *at;
} hagzimot;

enum {
  /* Messages come packed. */
  HAGZIMOT_PACKED_IN = 1,
  /* Messages go out packed. */
  HAGZIMOT_PACKED_OUT = 2,
  /* Messages go out as they are built, and not in canonical form. */
  HAGZIMOT_PLAIN = 4
};

/* Opens a relay. `schema` is what `capnp compile -o-` writes, or a JSON schema file. `root` names the struct at the root of
 * messages, by its name or id; if it is empty, the root is the one struct at the top of the schema. `calls` is a calls file, which
 * also has the limits. (docs/manual/calls.md) `flags` are HAGZIMOT_PACKED_IN and the others, added up.
 *
 * OK: the handle holds the relay, and hagzimot_close must follow. REFUSED: `text` says why, cut after `text_cap` bytes; the whole
 * text has `*text_len`. It isn't ended by a zero. Else OPEN, FORM, MEMORY or POINTER. After all but OK the handle is as it was. */
hagzimot_status hagzimot_open(hagzimot *handle, const uint8_t *schema, size_t schema_len, const uint8_t *root, size_t root_len,
                              const uint8_t *calls, size_t calls_len, uint32_t flags, uint8_t *text, size_t text_cap,
                              size_t *text_len);

/* Ends what a handle holds, and gives its memory back. A handle that holds nothing, and NULL, stay as they are. */
void hagzimot_close(hagzimot *handle);

/* Answers the messages of `in`, which are one behind the other: any number in one call. `out` gets the messages that are written,
 * and `log` a line for each message, as docs/manual/relay.md has it. Neither gets more than its `_cap`.
 *
 * OK: all are answered. ROOM: so too, but `out` or `log` is too short for them; hagzimot_take gets them without answering again.
 * FRAMING, SIZE, MEMORY: the messages before are answered, and `out` and `log` have them, if they fit. CLOSED, POINTER: nothing is
 * done. `*out_len` and `*log_len` are the lengths of all that was written, whether it fits or not. */
hagzimot_status hagzimot_relay(hagzimot *handle, const uint8_t *in, size_t in_len, uint8_t *out, size_t out_cap, size_t *out_len,
                               uint8_t *log, size_t log_cap, size_t *log_len);

/* Copies the output and the log of the last hagzimot_relay or hagzimot_show of the handle. OK, ROOM, CLOSED or POINTER. */
hagzimot_status hagzimot_take(hagzimot *handle, uint8_t *out, size_t out_cap, size_t *out_len, uint8_t *log, size_t log_cap,
                              size_t *log_len);

/* Writes the record of the framed message at the front of `in` as text on one line, without a zero at its end. OK or ROOM, where
 * hagzimot_take gets the text; else FRAMING, VALUE, SIZE, MEMORY, CLOSED or POINTER. */
hagzimot_status hagzimot_show(hagzimot *handle, const uint8_t *in, size_t in_len, uint8_t *out, size_t out_cap, size_t *out_len);

/* Writes the canonical form of the framed message at the front of `in`, framed, as words of 8 bytes. The message has at most
 * `words` words, following its pointers costs no more, and it has at most `levels` levels of them. No memory is taken.
 * OK: `*words_len` words are written. ROOM: `out_words` are too few; `words` and two suffice. Else FRAMING, VALUE or POINTER. After
 * ROOM and VALUE some words of `out` may be written, and `*words_len` is 0. */
hagzimot_status hagzimot_canonical(const uint8_t *in, size_t in_len, uint32_t words, uint32_t levels, uint8_t (*out)[8],
                                   size_t out_words, size_t *words_len);

/* Whether the framed message at the front of `in` is canonical, within such limits. OK, NO, FRAMING, VALUE or POINTER. No memory
 * is taken. */
hagzimot_status hagzimot_is_canonical(const uint8_t *in, size_t in_len, uint32_t words, uint32_t levels);

/* Whether what is written under an older schema reads the same under a newer. The schemas are as for hagzimot_open, and so is
 * `root`, which names a struct of both. `renames` is a renames file, or empty.
 * OK: it does. NO: `text` is the sentence of the first break. REFUSED: it says why they aren't compared. Else FORM, MEMORY or
 * POINTER. */
hagzimot_status hagzimot_compatible(const uint8_t *older, size_t older_len, const uint8_t *newer, size_t newer_len,
                                    const uint8_t *renames, size_t renames_len, const uint8_t *root, size_t root_len, uint8_t *text,
                                    size_t text_cap, size_t *text_len);

#ifdef __cplusplus
}
#endif
#endif
