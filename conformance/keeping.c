/* A library that stands before the main function of a program (LD_PRELOAD) and keeps the program started: for each request it makes
   a copy of the process, which runs main with the words of the request and ends as the program does. What the loader and the C
   library do at a start is done once. kept.py builds the library and speaks with it. The environment has numbers in

   KEEP    REQUESTS ANSWERS INPUT OUT ERR SECONDS MEMORY
           five descriptors: requests are read from the first, answers written to the second, and the copy reads its input from the
           file INPUT and writes into the files OUT and ERR, each from its beginning on; and the most seconds of a processor and
           bytes of addresses that a copy may take, 0 for no limit

   A request is a number of words and a number of bytes, 32 bits each, and the words with a zero behind each. An answer is 32 bits: the
   status with which the copy ended, or less than zero the signal that ended it. */
#define _GNU_SOURCE
#include <dlfcn.h>
#include <signal.h>
#include <stdint.h>
#include <stdio.h>
#include <stdlib.h>
#include <sys/prctl.h>
#include <sys/resource.h>
#include <sys/wait.h>
#include <unistd.h>

enum { MOST_WORDS = 64, MOST_BYTES = 4096, STREAMS = 3 };

typedef int Main(int, char **, char **);
typedef int Start(Main *, int, char **, void (*)(void), void (*)(void), void (*)(void), void *);

static int requests, answers, streams[STREAMS];
static unsigned long seconds, memory;
static char bytes[MOST_BYTES], *words[MOST_WORDS + 1];

static void take(void *to, size_t size) {
  for (ssize_t taken; size > 0; to = (char *)to + taken, size -= taken)
    if ((taken = read(requests, to, size)) <= 0) _exit(0);
}

/* Reads a request, and gives the number of its words. */
static int next(void) {
  uint32_t sizes[2];
  take(sizes, sizeof sizes);
  if (sizes[0] > MOST_WORDS || sizes[1] > MOST_BYTES) abort();
  take(bytes, sizes[1]);
  char *at = bytes;
  for (uint32_t word = 0; word < sizes[0]; word++) {
    words[word] = at;
    while (*at++ != 0) {}
  }
  words[sizes[0]] = NULL;
  return (int)sizes[0];
}

static void limit(int what, rlim_t most, rlim_t past) {
  struct rlimit both = {most, most + past};
  if (most > 0 && setrlimit(what, &both) != 0) abort();
}

/* Makes the copy what a process is that has just been started. */
static void begin(void) {
  prctl(PR_SET_PDEATHSIG, SIGKILL);
  for (int stream = 0; stream < STREAMS; stream++)
    if (dup2(streams[stream], stream) < 0 || lseek(stream, 0, SEEK_SET) != 0 || close(streams[stream]) != 0) abort();
  close(requests);
  close(answers);
  unsetenv("KEEP");
  limit(RLIMIT_CPU, seconds, 2);
  limit(RLIMIT_AS, memory, 0);
}

/* Answers requests, and gives the number of words of one in its copy alone. */
static int keep(void) {
  for (;;) {
    int count = next(), status = 0;
    pid_t copy = fork();
    if (copy == 0) {
      begin();
      return count;
    }
    if (copy < 0 || waitpid(copy, &status, 0) != copy) abort();
    int32_t answer = WIFSIGNALED(status) ? -WTERMSIG(status) : WEXITSTATUS(status);
    if (write(answers, &answer, sizeof answer) != sizeof answer) _exit(1);
  }
}

/* What each program calls first. */
int __libc_start_main(Main *main, int count, char **first, void (*init)(void), void (*fini)(void), void (*unload)(void), void *stack) {
  Start *start = (Start *)dlsym(RTLD_NEXT, "__libc_start_main");
  const char *told = getenv("KEEP");
  if (told == NULL) return start(main, count, first, init, fini, unload, stack);
  if (sscanf(told, "%d %d %d %d %d %lu %lu", &requests, &answers, &streams[0], &streams[1], &streams[2], &seconds, &memory) != 7) abort();
  count = keep();
  return start(main, count, words, init, fini, unload, stack);
}
