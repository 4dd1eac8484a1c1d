/* Prints the CPU time of a check of the pickle on standard input, in microseconds. */
#include <stdio.h>
#include <time.h>

#include "storklocker.h"

#define CALLS 20000
#define BYTES(text) (const uint8_t *)(text), sizeof(text) - 1

static const struct storklocker_pair permitted[] = {
    {BYTES("collections"), BYTES("OrderedDict")},
    {BYTES("datetime"), BYTES("datetime")},
    {BYTES("decimal"), BYTES("Decimal")},
};

int main(void) {
    static uint8_t pickle[1 << 16];
    const size_t length = fread(pickle, 1, sizeof pickle, stdin);
    struct storklocker_verdict verdict;
    const clock_t began = clock();
    for (int call = 0; call < CALLS; call++)
        if (storklocker_check_pairs(permitted, 3, NULL, pickle, length, NULL, 0, &verdict)
            != STORKLOCKER_YES)
            return 1;
    return printf("%f\n", (double)(clock() - began) * 1e6 / CLOCKS_PER_SEC / CALLS) < 0;
}
