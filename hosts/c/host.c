/* The functions of docs/WEBASSEMBLY.md, and runs of modules in threads of their own. */
#include "host.h"

#include <pthread.h>
#include <stdatomic.h>
#include <stdlib.h>
#include <string.h>
#include <sys/mman.h>
#include <time.h>

#include "module.h"
#include "wasm-rt-impl.h"

/* Bytes of stack: room for WASM_RT_MAX_CALL_STACK_DEPTH functions, which is what ends calls that are too deep. */
#define STACK ((size_t)1 << 30)
#define BUFFER 65536
/* The addresses that a memory may reach: an index and an offset of 32 bits each. */
#define REACH ((size_t)1 << 33)
#define PAGE 65536u
/* The most pages that wasm2c's count of bytes has room for. */
#define MOST_PAGES 65535u
/* What the jump out of a run stands for that isn't a trap. */
#define LEFT 1000

/* A run: what it was given, the bytes that are to be written, and those that were read. `writing` is held while bytes are written, and
   while it's held nobody takes any of those that are pending. */
struct Z_env_instance_t {
  const struct sather_module *module;
  const struct sather_host *host;
  void *instance;
  pthread_t thread;
  pthread_mutex_t writing;
  struct sather_result result;
  uint64_t left;
  atomic_size_t pending;
  size_t next, read;
  unsigned char output[BUFFER], input[BUFFER];
};

struct sather_run {
  struct Z_env_instance_t env;
};

static pthread_mutex_t initializing = PTHREAD_MUTEX_INITIALIZER;
/* The run of this thread. */
static _Thread_local struct Z_env_instance_t *current;

static struct sather_result ended(int status, enum sather_cause cause) {
  struct sather_result result = {status, cause, 0, 0};
  return result;
}

/* Leaves the module. */
static _Noreturn void leave(struct Z_env_instance_t *env, struct sather_result result) {
  env->result = result;
  WASM_RT_LONGJMP(wasm_rt_jmp_buf, LEFT);
}

/* Writes what is pending, as far as the output may go. Gives the cause where something is wrong. */
static enum sather_cause written(struct Z_env_instance_t *env) {
  size_t pending = atomic_load(&env->pending);
  size_t due = env->host->output && pending > env->left ? (size_t)env->left : pending;
  int failed = due && env->host->write && env->host->write(env->host->data, env->output, due);
  env->left -= due;
  atomic_store(&env->pending, 0);
  if (failed) return SATHER_OUTPUT_FAULT;
  return due < pending ? SATHER_OUTPUT_SPENT : SATHER_DONE;
}

static struct sather_result write_pending(struct Z_env_instance_t *env) {
  enum sather_cause cause;
  pthread_mutex_lock(&env->writing);
  cause = written(env);
  pthread_mutex_unlock(&env->writing);
  return ended(cause == SATHER_OUTPUT_FAULT ? 123 : cause == SATHER_OUTPUT_SPENT ? 122 : 0, cause);
}

static void write_or_leave(struct Z_env_instance_t *env) {
  struct sather_result result = write_pending(env);
  if (result.cause != SATHER_DONE) leave(env, result);
}

void Z_envZ_put(struct Z_env_instance_t *env, uint32_t byte) {
  size_t pending = atomic_load_explicit(&env->pending, memory_order_relaxed);
  env->output[pending] = (unsigned char)byte;
  atomic_store_explicit(&env->pending, pending + 1, memory_order_release);
  if (pending + 1 == BUFFER || (env->host->lines && (byte & 255) == '\n')) write_or_leave(env);
}

/* What was put out before more input is read can be seen first. */
static void read_more(struct Z_env_instance_t *env) {
  long count = 0;
  write_or_leave(env);
  if (env->host->read) count = env->host->read(env->host->data, env->input, BUFFER);
  if (count < 0) leave(env, ended(123, SATHER_INPUT_FAULT));
  env->next = 0;
  env->read = (size_t)count;
}

uint32_t Z_envZ_get(struct Z_env_instance_t *env) {
  if (env->next == env->read) read_more(env);
  return env->next < env->read ? env->input[env->next++] : (uint32_t)-1;
}

void Z_envZ_stop(struct Z_env_instance_t *env, uint32_t code, uint32_t site) {
  struct sather_result result = {121, SATHER_STOPPED, code, site};
  leave(env, result);
}

/* wasm2c's own ends the process where there is no memory, and gives back fewer addresses than it took. */
void sather_allocate_memory(wasm_rt_memory_t *memory, uint32_t initial, uint32_t most) {
  uint32_t bound = current->host->pages && current->host->pages < MOST_PAGES ? current->host->pages : MOST_PAGES;
  size_t length = (size_t)initial * PAGE;
  void *data = MAP_FAILED;
  if (initial <= bound) data = mmap(NULL, REACH, PROT_NONE, MAP_ANONYMOUS | MAP_PRIVATE | MAP_NORESERVE, -1, 0);
  if (data == MAP_FAILED) leave(current, ended(125, SATHER_NO_MEMORY));
  memory->data = data;
  if (mprotect(data, length, PROT_READ | PROT_WRITE) != 0) leave(current, ended(125, SATHER_NO_MEMORY));
  memory->size = (uint32_t)length;
  memory->pages = initial;
  memory->max_pages = most < bound ? most : bound;
}

void sather_free_memory(wasm_rt_memory_t *memory) {
  if (memory->data) munmap(memory->data, REACH);
}

/* Runs the module up to its end, or to a jump out of it. */
static void run_module(struct Z_env_instance_t *env) {
  volatile int jumped = wasm_rt_impl_try();
  if (jumped == LEFT) return;
  if (jumped != WASM_RT_TRAP_NONE) {
    env->result = ended(126, jumped == WASM_RT_TRAP_EXHAUSTION ? SATHER_TOO_DEEP : SATHER_TRAP);
    return;
  }
  env->module->instantiate(env->instance, env);
  env->result = ended((int)(env->module->main(env->instance) & 255), SATHER_DONE);
}

static void *run(void *given) {
  struct Z_env_instance_t *env = given;
  struct sather_result last;
  current = env;
  pthread_mutex_lock(&initializing);
  wasm_rt_init();
  env->module->init();
  pthread_mutex_unlock(&initializing);
  run_module(env);
  last = write_pending(env);
  if (last.cause != SATHER_DONE && env->result.status != 123 && env->result.status != 122) env->result = last;
  env->module->free(env->instance);
  return NULL;
}

static void free_run(struct sather_run *run_of) {
  free(run_of->env.instance);
  pthread_mutex_destroy(&run_of->env.writing);
  free(run_of);
}

struct sather_run *sather_start(const struct sather_module *module, const struct sather_host *host) {
  pthread_attr_t attributes;
  struct sather_run *made = calloc(1, sizeof *made);
  int failed;
  if (!made) return NULL;
  made->env.module = module;
  made->env.host = host;
  made->env.left = host->output;
  pthread_mutex_init(&made->env.writing, NULL);
  made->env.instance = calloc(1, module->size);
  failed = !made->env.instance || pthread_attr_init(&attributes) != 0;
  if (!failed) {
    failed = pthread_attr_setstacksize(&attributes, STACK) != 0 || pthread_create(&made->env.thread, &attributes, run, &made->env) != 0;
    pthread_attr_destroy(&attributes);
  }
  if (failed) {
    free_run(made);
    return NULL;
  }
  return made;
}

struct sather_result sather_wait(struct sather_run *run_of) {
  struct sather_result result;
  if (!run_of) return ended(125, SATHER_NO_MEMORY);
  pthread_join(run_of->env.thread, NULL);
  result = run_of->env.result;
  free_run(run_of);
  return result;
}

struct sather_result sather_run(const struct sather_module *module, const struct sather_host *host) {
  return sather_wait(sather_start(module, host));
}

int sather_flush(struct sather_run *run_of) {
  struct timespec late;
  clock_gettime(CLOCK_REALTIME, &late);
  late.tv_sec += 1;
  if (pthread_mutex_timedlock(&run_of->env.writing, &late) != 0) return -1;
  return written(&run_of->env) == SATHER_DONE ? 0 : -1;
}
