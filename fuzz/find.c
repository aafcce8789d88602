/* libFuzzer's entry. */

#include <stdio.h>
#include <stdlib.h>
#include "fuzz.h"

int LLVMFuzzerTestOneInput(const uint8_t *data, size_t size);

void found(const char *call, const char *fact)
{
    fprintf(stderr, "%s: not so: %s\n", call, fact);
    abort();
}

int LLVMFuzzerTestOneInput(const uint8_t *data, size_t size)
{
    fuzz_one(data, size);
    return 0;
}
