/* PROGRAM [--seconds N] [--memory MIB] [--output KIB]: runs the module `program` with the streams of the process. The status and the line
   on err are those of `sather exec`, with the name by which the program was called for that of the module. */
#include <errno.h>
#include <pthread.h>
#include <signal.h>
#include <stdio.h>
#include <stdlib.h>
#include <string.h>
#include <sys/resource.h>
#include <time.h>
#include <unistd.h>

#include "host.h"

extern const struct sather_module sather_program;

static const char *const CAUSES[] = {"", "stop", "output spent", "input fault", "output fault", "out of memory", "trap", "too deep"};

/* Seconds after which a run is ended, or 0; and the run. */
static time_t seconds;
static struct sather_run *run;
static sigset_t ending;
/* The signal that ends the process. */
static volatile sig_atomic_t last;

static long read_input(void *data, unsigned char *bytes, size_t most) {
  ssize_t count;
  (void)data;
  do {
    count = read(STDIN_FILENO, bytes, most);
  } while (count < 0 && errno == EINTR);
  return count;
}

static int write_output(void *data, const unsigned char *bytes, size_t count) {
  size_t at = 0;
  (void)data;
  while (at < count) {
    ssize_t written = write(STDOUT_FILENO, bytes + at, count - at);
    if (written >= 0) at += (size_t)written;
    else if (errno != EINTR) return -1;
  }
  return 0;
}

static _Noreturn void end_by(int number) {
  signal(number, SIG_DFL);
  raise(number);
  _Exit(128 + number);
}

/* The last bytes aren't taken within a second. */
static void too_late(int number) {
  (void)number;
  if (last == 0) _Exit(122);
  end_by(last);
}

/* Waits for a signal, or until the time is up; then what the run holds is written, and the process ends. */
static void *watch(void *nothing) {
  struct timespec most = {seconds, 0};
  int number;
  (void)nothing;
  do {
    number = seconds ? sigtimedwait(&ending, NULL, &most) : sigwaitinfo(&ending, NULL);
  } while (number < 0 && errno == EINTR);
  last = number < 0 ? 0 : number;
  signal(SIGALRM, too_late);
  /* A second signal ends the process at once. */
  pthread_sigmask(SIG_UNBLOCK, &ending, NULL);
  alarm(1);
  sather_flush(run);
  if (last) end_by(last);
  fputs("time spent\n", stderr);
  _Exit(122);
}

/* The number behind a word, of one to nine digits and not 0, or 0. */
static unsigned long number_of(const char *text) {
  size_t length = text ? strlen(text) : 0;
  return length >= 1 && length <= 9 && strspn(text, "0123456789") == length ? strtoul(text, NULL, 10) : 0;
}

static int read_words(int words, char **word, struct sather_host *host) {
  int at;
  for (at = 1; at < words; at += 2) {
    unsigned long number = number_of(word[at + 1]);
    if (number == 0) return -1;
    if (strcmp(word[at], "--seconds") == 0) seconds = (time_t)number;
    else if (strcmp(word[at], "--memory") == 0) host->pages = number < 4096 ? (uint32_t)number * 16 : 65536;
    else if (strcmp(word[at], "--output") == 0) host->output = (uint64_t)number * 1024;
    else return -1;
  }
  return 0;
}

/* Where the limit of the processor's time ends the process without a signal before, as by `ulimit -t`, the signal comes a second
   earlier. */
static void soften_time_limit(void) {
  struct rlimit limit;
  if (getrlimit(RLIMIT_CPU, &limit) == 0 && limit.rlim_max != RLIM_INFINITY && limit.rlim_cur == limit.rlim_max && limit.rlim_max > 1) {
    limit.rlim_cur = limit.rlim_max - 1;
    setrlimit(RLIMIT_CPU, &limit);
  }
}

int main(int words, char **word) {
  static struct sather_host host = {read_input, write_output, NULL, 0, 0, 0};
  static const int signals[] = {SIGINT, SIGTERM, SIGHUP, SIGXCPU};
  struct sather_result result;
  pthread_t watcher;
  size_t at;
  if (read_words(words, word, &host) != 0) {
    fprintf(stderr, "usage: %s [--seconds N] [--memory MIB] [--output KIB]\n", word[0]);
    return 124;
  }
  host.lines = isatty(STDOUT_FILENO);
  /* A pipe that nobody reads, and a file that may not grow, are output faults. */
  signal(SIGPIPE, SIG_IGN);
  signal(SIGXFSZ, SIG_IGN);
  sigemptyset(&ending);
  for (at = 0; at < sizeof signals / sizeof *signals; at++) {
    struct sigaction before;
    /* What the caller has made ignored stays so, as SIGHUP by nohup. */
    if (sigaction(signals[at], NULL, &before) == 0 && before.sa_handler != SIG_IGN) sigaddset(&ending, signals[at]);
  }
  pthread_sigmask(SIG_BLOCK, &ending, NULL);
  soften_time_limit();
  run = sather_start(&sather_program, &host);
  if (run && pthread_create(&watcher, NULL, watch, NULL) != 0) run = NULL;
  result = sather_wait(run);
  if (result.cause == SATHER_STOPPED) fprintf(stderr, "%s: stop %u at %u\n", word[0], (unsigned)result.code, (unsigned)result.site);
  else if (result.status == 126) fprintf(stderr, "%s: %s\n", word[0], CAUSES[result.cause]);
  else if (result.cause != SATHER_DONE) fprintf(stderr, "%s\n", CAUSES[result.cause]);
  _Exit(result.status);
}
