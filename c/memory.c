/* The memory of calls with a limit. The build has the kit's allocator call the three functions of this file in
 * the place of malloc, realloc and free.
 *
 * A call frees all that it allocates before it returns, and in its thread. So a block is freed under the limit
 * that it was allocated under: without one it is a block of malloc, and with one it has its size before it.
 */
#include "internal.h"
#include <stdlib.h>

/* As long as any alignment that a block may have. */
#define HEAD 16
/* What a block takes at most beside its bytes: its head, and what malloc keeps and rounds up to. */
#define OVERHEAD (HEAD + 24)

/* The limit of this thread's call in bytes, 0 for none, and what the call holds. */
static _Thread_local size_t limit, held;

/* Whether the call may hold one more block of this size. */
static int has_room(size_t size) {
    size_t left = limit - held;
    return left >= OVERHEAD && size <= left - OVERHEAD;
}

/* Writes the size before a block, and counts the block. */
static void *counted(uint8_t *start, size_t size) {
    if (!start) return NULL;
    *(size_t *)start = size;
    held += size + OVERHEAD;
    return start + HEAD;
}

void *liquid_memory_alloc(size_t size) {
    if (!limit) return malloc(size);
    return has_room(size) ? counted((uint8_t *)malloc(HEAD + size), size) : NULL;
}

/* While a block grows both sizes count, since realloc may copy it. */
void *liquid_memory_realloc(void *block, size_t size) {
    uint8_t *start;
    size_t before;
    if (!limit) return realloc(block, size);
    if (!block) return liquid_memory_alloc(size);
    start = (uint8_t *)block - HEAD;
    before = *(size_t *)start;
    if (size > before && !has_room(size)) return NULL;
    block = counted((uint8_t *)realloc(start, HEAD + size), size);
    if (block) held -= before + OVERHEAD;
    return block;
}

void liquid_memory_free(void *block) {
    uint8_t *start;
    if (!limit || !block) {
        free(block);
        return;
    }
    start = (uint8_t *)block - HEAD;
    held -= *(size_t *)start + OVERHEAD;
    free(start);
}

void liquid_render_within(const liquid_page *page, size_t max_memory,
                          uint8_t *out, size_t out_len,
                          uint8_t *message, size_t message_len,
                          liquid_outcome *outcome) {
    limit = max_memory;
    liquid_render(page, out, out_len, message, message_len, outcome);
    limit = held = 0;
}

size_t liquid_render_each_within(const liquid_page *page, size_t max_memory,
                                 const liquid_bytes *globals, size_t globals_count,
                                 uint8_t *out, size_t out_len,
                                 uint8_t *message, size_t message_len,
                                 liquid_outcome *outcomes, size_t outcome_count) {
    size_t whole;
    limit = max_memory;
    whole = liquid_render_each(page, globals, globals_count, out, out_len, message, message_len, outcomes, outcome_count);
    limit = held = 0;
    return whole;
}
