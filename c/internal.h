/* What the files of the library in C know of one another and of the part in Rattle. */
#ifndef LIQUID_INTERNAL_H
#define LIQUID_INTERNAL_H

#include "liquid.h"

#define INTERNAL __attribute__((visibility("hidden")))

/* The calls of crates/liquid_static, which take no null pointer. */
void liquid_core_render(const liquid_page *page,
                        uint8_t *out, size_t out_len,
                        uint8_t *message, size_t message_len,
                        liquid_outcome *outcome);
size_t liquid_core_render_each(const liquid_page *page,
                               const liquid_bytes *globals, size_t globals_count,
                               uint8_t *out, size_t out_len,
                               uint8_t *message, size_t message_len,
                               liquid_outcome *outcomes, size_t outcome_count);

/* The allocator of a call (c/memory.c). */
INTERNAL void *liquid_memory_alloc(size_t size);
INTERNAL void *liquid_memory_realloc(void *block, size_t size);
INTERNAL void liquid_memory_free(void *block);

#endif
