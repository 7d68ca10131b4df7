/* Relays the same messages in one thread and in four, with a handle for each thread, and compares the results.

   usage: c_threads MESSAGES [RATE]

   Prints how many times the rate of one thread four threads have, by the clock, and by the time that each thread had a processor.
   The second doesn't depend on other programs. With RATE, ends with status 1 if the first is less. */
#define _GNU_SOURCE
#include "hagzimot.h"
#include <pthread.h>
#include <stdio.h>
#include <stdlib.h>
#include <string.h>
#include <time.h>

#define THREADS 4
/* Messages of a call, and rounds, of which the best counts. */
#define BATCH 64
#define ROUNDS 5
#define TEXT(text) (const uint8_t *)(text), strlen(text)

static const char *const schema = "[{\"id\":1,\"name\":\"P\",\"data\":1,\"pointers\":1,\"fields\":["
                                  "{\"name\":\"a\",\"type\":\"UInt16\",\"offset\":0},{\"name\":\"t\",\"type\":\"Text\",\"offset\":0}]}]";
static const char *const calls = "{\"calls\":[{\"path\":[\"a\"],\"verb\":\"set\",\"value\":{\"number\":9}},{\"path\":[\"t\"],\"verb\":"
                                 "\"get\"}]}";
/* (a = 7, t = "hi"). */
static const uint8_t message[] = {0, 0, 0, 0, 4, 0, 0, 0, 0, 0, 0, 0, 1, 0, 1, 0, 7,   0,   0, 0, 0, 0, 0, 0,
                                  1, 0, 0, 0, 26, 0, 0, 0, 'h', 'i', 0, 0, 0, 0, 0, 0};
static uint8_t input[BATCH * sizeof message];
static int batches;

/* A thread, the last results of its handle, and a sum over all of them. */
typedef struct work {
  pthread_t thread;
  uint8_t out[BATCH * 64], log[BATCH * 64];
  size_t out_len, log_len;
  uint64_t sum;
  double taken;
  hagzimot_status status;
} work;

static double seconds_of(clockid_t clock) {
  struct timespec at;
  clock_gettime(clock, &at);
  return (double)at.tv_sec + (double)at.tv_nsec / 1e9;
}

static uint64_t added(uint64_t sum, const uint8_t *bytes, size_t len) {
  for (size_t i = 0; i < len; i++)
    sum = (sum ^ bytes[i]) * 1099511628211u;
  return sum;
}

static void *relays(void *given) {
  work *it = given;
  hagzimot handle = {0};
  double from = seconds_of(CLOCK_THREAD_CPUTIME_ID);
  it->sum = 0;
  it->status = hagzimot_open(&handle, TEXT(schema), TEXT("P"), TEXT(calls), 0, it->out, sizeof it->out, &it->out_len);
  for (int i = 0; i < batches && it->status == HAGZIMOT_OK; i++) {
    /* The messages of each batch differ from those of the one before by their number. */
    size_t len = sizeof input - (size_t)(i % 8) * sizeof message;
    it->status = hagzimot_relay(&handle, input, len, it->out, sizeof it->out, &it->out_len, it->log, sizeof it->log, &it->log_len);
    if (i % 16 == 0)
      it->sum = added(added(it->sum, it->out, it->out_len), it->log, it->log_len);
  }
  hagzimot_close(&handle);
  it->taken = seconds_of(CLOCK_THREAD_CPUTIME_ID) - from;
  return NULL;
}

static double lesser(double least, double taken) {
  return least == 0 || taken < least ? taken : least;
}

/* The seconds that a number of threads take at their best, by the clock and of a processor. Returns 0 if their results differ. */
static int seconds(work *works, int count, double *clock, double *processor) {
  *clock = *processor = 0;
  for (int round = 0; round < ROUNDS; round++) {
    double from = seconds_of(CLOCK_MONOTONIC), longest = 0;
    for (int i = 0; i < count; i++)
      if (pthread_create(&works[i].thread, NULL, relays, &works[i]) != 0)
        return 0;
    for (int i = 0; i < count; i++)
      pthread_join(works[i].thread, NULL);
    *clock = lesser(*clock, seconds_of(CLOCK_MONOTONIC) - from);
    for (int i = 0; i < count; i++) {
      longest = works[i].taken > longest ? works[i].taken : longest;
      if (works[i].status != HAGZIMOT_OK || works[i].sum != works[0].sum || works[i].out_len != works[0].out_len ||
          memcmp(works[i].out, works[0].out, works[0].out_len) != 0)
        return 0;
    }
    *processor = lesser(*processor, longest);
  }
  return 1;
}

int main(int count, char **words) {
  static work one, four[THREADS];
  if (count < 2)
    return 2;
  batches = atoi(words[1]) / BATCH;
  for (int i = 0; i < BATCH; i++)
    memcpy(input + (size_t)i * sizeof message, message, sizeof message);
  double clock, own, clock_of_four, own_of_four;
  if (!seconds(&one, 1, &clock, &own) || !seconds(four, THREADS, &clock_of_four, &own_of_four) || one.sum != four[0].sum) {
    printf("the results of the threads differ\n");
    return 1;
  }
  double rate = THREADS * clock / clock_of_four;
  printf("%d threads have the results of one, and %.2f times its rate by the clock, %.2f by their processors' time\n", THREADS, rate,
         THREADS * own / own_of_four);
  return count > 2 && rate < atof(words[2]) ? 1 : 0;
}
