/* What host.c needs of a module that wasm2c has made into C. */
#ifndef SATHER_MODULE_H
#define SATHER_MODULE_H

#include <stddef.h>
#include <stdint.h>

struct Z_env_instance_t;

struct sather_module {
  size_t size;
  void (*init)(void);
  void (*instantiate)(void *instance, struct Z_env_instance_t *env);
  uint32_t (*main)(void *instance);
  void (*free)(void *instance);
};

#endif
