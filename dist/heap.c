/* Memory for the proved code: runtime.h's first three functions, over malloc, realloc and free. */
#include "runtime.h"

#include <stdlib.h>

static char nothing;

static struct rattle_tried tried(void *block) {
    return (struct rattle_tried){block != NULL, block != NULL ? block : &nothing};
}

struct rattle_tried rattle_alloc(size_t size, size_t alignment) {
    return tried(malloc(size != 0 ? size : alignment));
}

struct rattle_tried rattle_realloc(void *block, size_t kept, size_t size, size_t alignment) {
    (void)kept;
    return tried(realloc(block, size != 0 ? size : alignment));
}

void rattle_dealloc(void *block) {
    free(block);
}
