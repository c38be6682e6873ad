/* Runs copies, which copies its input, and divides, which stops, many times at once, by the library that hosts/c/build makes of the
   modules. Prints `all right`, or what isn't. */
#include <pthread.h>
#include <stdio.h>
#include <string.h>

#include "host.h"

enum { RUNS = 16, LENGTH = 100000 };

extern const struct sather_module sather_copies, sather_divides;

/* A run: its number, and how many bytes it has read and written. Each run has bytes of its own. */
struct own {
  unsigned char number;
  int read, written, wrong;
};

static long read_own(void *data, unsigned char *bytes, size_t most) {
  struct own *own = data;
  int count = LENGTH - own->read < (int)most ? LENGTH - own->read : (int)most;
  memset(bytes, own->number, (size_t)count);
  own->read += count;
  return count;
}

static int write_own(void *data, const unsigned char *bytes, size_t count) {
  struct own *own = data;
  for (size_t at = 0; at < count; at++) own->wrong += bytes[at] != own->number;
  own->written += (int)count;
  return 0;
}

static void *one(void *given) {
  struct own *own = given;
  struct sather_host host = {.read = read_own, .write = write_own, .data = own};
  struct sather_host small = {.pages = 1}, nothing = {0}, few = {.read = read_own, .write = write_own, .data = own, .output = 10};
  struct sather_result result = sather_run(&sather_copies, &host);
  own->wrong += result.status != 0 || result.cause != SATHER_DONE || own->written != LENGTH;
  result = sather_run(&sather_divides, &nothing);
  own->wrong += result.status != 121 || result.cause != SATHER_STOPPED || result.code != 2;
  result = sather_run(&sather_divides, &small);
  own->wrong += result.status != 125 || result.cause != SATHER_NO_MEMORY;
  own->read = own->written = 0;
  result = sather_run(&sather_copies, &few);
  own->wrong += result.status != 122 || result.cause != SATHER_OUTPUT_SPENT || own->written != 10;
  return NULL;
}

int main(void) {
  pthread_t thread[RUNS];
  struct own own[RUNS] = {{0, 0, 0, 0}};
  int wrong = 0;
  for (int at = 0; at < RUNS; at++) {
    own[at].number = (unsigned char)('a' + at);
    wrong += pthread_create(&thread[at], NULL, one, &own[at]) != 0;
  }
  for (int at = 0; at < RUNS; at++) {
    pthread_join(thread[at], NULL);
    wrong += own[at].wrong;
  }
  printf(wrong ? "%d are wrong\n" : "all right\n", wrong);
  return wrong != 0;
}
