/* The functions of crate.rs. */
#include <stddef.h>
#include <stdint.h>

uint32_t crate_tag(const uint8_t *name, size_t len);
uint32_t crate_full(const uint8_t *name, size_t len);
uint32_t crate_submodule(const uint8_t *name, size_t len);
uint32_t crate_component(const uint8_t *name, size_t len, uint32_t flags);
size_t crate_sanitize(const uint8_t *name, size_t len, uint8_t *out);
