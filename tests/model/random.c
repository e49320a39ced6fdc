/*
 * Random numbers, bytes and lengths, by the seed in rng; included by the
 * generators.
 */

static uint64_t rng;

static void seed_random(uint64_t seed)
{
    rng = seed * 0xD1342543DE82EF95u + 1;
}

static uint64_t next_random(void)
{
    uint64_t z = rng += 0x9E3779B97F4A7C15u;
    z = (z ^ (z >> 30)) * 0xBF58476D1CE4E5B9u;
    z = (z ^ (z >> 27)) * 0x94D049BB133111EBu;
    return z ^ (z >> 31);
}

/* 0 to n - 1 */
static unsigned below(unsigned n)
{
    return (unsigned)((next_random() >> 32) * n >> 32);
}

static unsigned between(unsigned low, unsigned high)
{
    return low + below(high - low + 1);
}

static int one_in(unsigned n)
{
    return below(n) == 0;
}

static int per_mille(unsigned n)
{
    return below(1000) < n;
}

static uint8_t any_byte(void)
{
    static const uint8_t liked[] = {
        0x00, 0x01, 0x02, 0x08, 0x10, 0x11, 0x12, 0x20, 0x30, 0x3F, 0x40,
        0x41, 0x42, 0x48, 0x58, 0x5A, 0x60, 0x80, 0xA0, 0xA5, 0xC0, 0xFE, 0xFF
    };
    if (one_in(2))
        return (uint8_t)below(256);
    return liked[below(sizeof liked)];
}

/* So much more, over n lengths that have room for it */
static void spread(uint8_t *len, unsigned n, unsigned sum)
{
    for (unsigned left = sum; left > 0;) {
        unsigned t = below(n), room = 255u - len[t];
        unsigned add = room < left ? room : left;
        if (add > 1 && one_in(2))
            add = between(1, add);
        len[t] = (uint8_t)(len[t] + add);
        left -= add;
    }
}
