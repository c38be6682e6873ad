/* Runs modules of which `hosts/c/build --library` has made a library, as many at once as are asked for. Each run has an instance and a
   thread of its own, with a stack of 1 GiB of addresses for calls that go deep. */
#ifndef SATHER_HOST_H
#define SATHER_HOST_H

#include <stddef.h>
#include <stdint.h>

#ifdef __cplusplus
extern "C" {
#endif

/* A module. `hosts/c/build --library NAME` defines sather_NAME. */
struct sather_module;

/* What a run is given. All of it may be 0: then there is no input, the output goes nowhere, and nothing is limited. */
struct sather_host {
  /* Gives how many bytes were read: at least one, 0 at the end of the input, and -1 where it failed. */
  long (*read)(void *data, unsigned char *bytes, size_t most);
  /* Takes all of the bytes and gives 0, or something else where it failed. */
  int (*write)(void *data, const unsigned char *bytes, size_t count);
  void *data;
  uint32_t pages;  /* the most pages of 64 KiB that the module's memory may have */
  uint64_t output; /* the most bytes that it may put out */
  int lines;       /* whether output is written at each line feed, and not when 65,536 bytes are there, before a read and at the end */
};

enum sather_cause {
  SATHER_DONE,
  SATHER_STOPPED,
  SATHER_OUTPUT_SPENT,
  SATHER_INPUT_FAULT,
  SATHER_OUTPUT_FAULT,
  SATHER_NO_MEMORY,
  SATHER_TRAP,
  SATHER_TOO_DEEP
};

/* How a run has ended: the status of `sather exec`, the cause, and the numbers of a stop. */
struct sather_result {
  int status;
  enum sather_cause cause;
  uint32_t code, site;
};

/* Runs a module in a new instance. It may be called from several threads at once. */
struct sather_result sather_run(const struct sather_module *module, const struct sather_host *host);

/* The same in two halves. A run that was started is NULL where there is no memory for it, which `sather_wait` takes too; what `host`
   points to has to be there until the run has ended. */
struct sather_run *sather_start(const struct sather_module *module, const struct sather_host *host);
struct sather_result sather_wait(struct sather_run *run);

/* Writes what a run holds and keeps it from writing more, for a process that is about to end. Gives 0, or something else where the
   run didn't let go of its output within a second. */
int sather_flush(struct sather_run *run);

#ifdef __cplusplus
}
#endif

#endif
