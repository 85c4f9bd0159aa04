/* Compiled as C and as C++: the header stands alone, can be included twice, has the scope's numbers, and lends a quote
 * only the recipe, the counts and the saving to write. */
#include "hirunvel.h"
#include "hirunvel.h"

#if HIRUNVEL_ACCEPTED != 0 || HIRUNVEL_WINDOW != 1 || HIRUNVEL_UNSOUND != 2 || HIRUNVEL_JOB_LENGTH != 3 \
    || HIRUNVEL_MEMORY_LIMIT != 4 || HIRUNVEL_HEAD != 5 || HIRUNVEL_RECIPE_FULL != 6 || HIRUNVEL_DIRECTORY_FULL != 7 \
    || HIRUNVEL_POOL_FULL != 8 || HIRUNVEL_CHUNK_NUMBER != 9 || HIRUNVEL_OUTPUT_SHORT != 10 \
    || HIRUNVEL_INDEX_LENGTH != 11 || HIRUNVEL_INDEX != 12
#error "a refusal has another number than in the scope"
#endif

#if HIRUNVEL_WINDOW_LIMIT != 64 || HIRUNVEL_JOB_LIMIT != 16777216 || HIRUNVEL_POOL_LIMIT != 67108864 \
    || HIRUNVEL_DIRECTORY_LIMIT != 131070 || HIRUNVEL_RECIPE_LIMIT != 65535 \
    || HIRUNVEL_CHUNK_LIMIT != 256 * HIRUNVEL_WINDOW_LIMIT + 1 || HIRUNVEL_CHAINS != 1024
#error "a limit is not the scope's"
#endif

typedef uint32_t quote_function(const uint32_t *, const uint8_t *, size_t, const uint32_t *, size_t, const uint32_t *,
                                size_t, uint32_t *, size_t, const uint8_t *, size_t, uint64_t *, int64_t *);
typedef uint32_t take_function(uint32_t *, uint8_t *, size_t, uint32_t *, size_t, uint32_t *, size_t, uint32_t *,
                               size_t, const uint8_t *, size_t, uint64_t *, int64_t *);

quote_function *quote = hirunvel_store_quote;
take_function *take = hirunvel_store_take;
