/* Cuts of the plain C octagon alone: the random cuts of crates/octagon_trials, a thousand for each byte of input. */
#include <stdio.h>
#include "plain/octagon.h"

static uint32_t draw(uint64_t *seed, uint32_t below)
{
    *seed = *seed * 6364136223846793005u + 1442695040888963407u;
    return (uint32_t)(*seed >> 33) % below;
}

/* Ten cuts of eight settings, on a fresh octagon. */
static void ten(uint64_t *seed, const Octagon *fresh, Octagon *o)
{
    *o = *fresh;
    for (int i = 0; i < 10; i++) {
        int p = (int)draw(seed, 16), q = (int)draw(seed, 16);
        int32_t c = (int32_t)draw(seed, 2001) - 1000;
        if (q != (p ^ 1))
            take_cut(o, (Cut){p, q, c});
    }
}

int main(void)
{
    static char text[1 << 16];
    static const int32_t lows[8] = {-1000, -1000, -1000, -1000, -1000, -1000, -1000, -1000};
    static const int32_t highs[8] = {1000, 1000, 1000, 1000, 1000, 1000, 1000, 1000};
    size_t thousands = fread(text, 1, sizeof text, stdin);
    uint64_t seed = 1;
    Octagon fresh, o;
    start(&fresh, 8, lows, highs);
    o = fresh;
    for (size_t k = 0; k < 100 * thousands; k++)
        ten(&seed, &fresh, &o);
    for (int p = 0; p < 6; p++)
        for (int q = 0; q < 6; q++)
            printf(" %d", o.limits[p][q]);
    printf("\n");
    return 0;
}
