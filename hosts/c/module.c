/* The module MODULE, whose C stands in program.h. MAIN_GIVES says whether its main has a result, and IMPORTS whether it imports
   anything. */
#include "module.h"
#include "program.h"

#define JOIN(a, b, c) a##b##c
#define NAMED(a, b, c) JOIN(a, b, c)
#define OF(part) NAMED(Z_, MODULE, part)

static void instantiate(void *instance, struct Z_env_instance_t *env) {
#if IMPORTS
  OF(_instantiate)(instance, env);
#else
  (void)env;
  OF(_instantiate)(instance);
#endif
}

static uint32_t call_main(void *instance) {
#if MAIN_GIVES
  return OF(Z_main)(instance);
#else
  OF(Z_main)(instance);
  return 0;
#endif
}

static void free_instance(void *instance) {
  OF(_free)(instance);
}

const struct sather_module NAMED(sather_, MODULE, ) = {
    sizeof(OF(_instance_t)), OF(_init_module), instantiate, call_main, free_instance,
};
