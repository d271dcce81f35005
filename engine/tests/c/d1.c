/* Compiles D1 and prints its plan, then one of its refusals by name; reads the plan back, whole and cut. */
#include "sinalvento.h"

#include <stdio.h>
#include <string.h>

static const uint8_t d1[] = {
    3, 0, 4, 'r', 'o', 'o', 'm', 3, 't', 'a', 'g', 1, 'k',
    3, 0, 0, 1, 4, 2, 0, 0, 0, 0, 1, 0, 1, 0,
    1, 0, 2, 0, 0xFF, 0xFF,
    3, 0, 0, 7, 0, 0, 0, 0, 0, 0, 0, 6, 2, 0, 8, 2, 0, 0, 0, 0, 1, 0, 1, 0,
    0, 0, 0, 0, 0, 0, 0, 0, 0, 0,
    1, 0, 0, 0, 2, 0, 0, 0,
};

static uint8_t plan[SINALVENTO_MAX_PLAN];
static uint8_t work[SINALVENTO_MIN_WORK];
static uint8_t out[SINALVENTO_MAX_PLAN];

/* Reads the plan of so many bytes back, without a work area; returns 0 where all is as it should be. */
static int read_back(size_t length)
{
    memset(out, 0xEE, sizeof out);
    uint64_t result = sinalvento_read(plan, length, out, sizeof out, NULL, 0);
    if (result != length || memcmp(out, plan, sizeof out) != 0)
        return 5;
    result = sinalvento_read(plan, length - 1, out, sizeof out, work, sizeof work);
    if (sinalvento_refusal_of(result) != SINALVENTO_PLAN_ENDS || out[0] != 0)
        return 6;
    result = sinalvento_read(plan, length, out, length - 1, NULL, 0);
    if (sinalvento_refusal_of(result) != SINALVENTO_PLAN_TOO_LONG)
        return 7;
    return 0;
}

int main(void)
{
    memset(plan, 0xEE, sizeof plan);
    memset(work, 0xEE, sizeof work);
    uint64_t result = sinalvento_compile(d1, sizeof d1, plan, sizeof plan, work, sizeof work);
    if (sinalvento_refusal_of(result) != SINALVENTO_ACCEPTED)
        return 1;
    for (size_t at = 0; at < sinalvento_length_of(result); at++)
        printf("%02x", plan[at]);
    printf("\n");
    int wrong = read_back(sinalvento_length_of(result));
    if (wrong != 0)
        return wrong;

    /* Without its last byte, the file ends inside a record. */
    result = sinalvento_compile(d1, sizeof d1 - 1, plan, sizeof plan, work, sizeof work);
    if (sinalvento_refusal_of(result) != SINALVENTO_ENDS)
        return 2;
    if (sinalvento_length_of(result) != 0)
        return 3;
    for (size_t at = 0; at < sizeof plan; at++)
        if (plan[at] != 0)
            return 4;
    printf("refused %d\n", SINALVENTO_ENDS);
    return 0;
}
