/* The loads and the product of rapidhash_c.h, replaced by the random functions of util.rs. */
static uint64_t key;

static uint64_t random_word(uint64_t tag, uint64_t first, uint64_t second)
{
    const uint64_t words[2] = {first, second};
    uint64_t x = key ^ tag * UINT64_C(0x9e3779b97f4a7c15);

    for (int i = 0; i < 2; i++) {
        x ^= words[i];
        x = (x ^ x >> 32) * UINT64_C(0xd6e8feb86659fd93);
        x = (x ^ x >> 32) * UINT64_C(0xd6e8feb86659fd93);
        x ^= x >> 32;
    }
    return x;
}

static uint64_t rapidhash_load4_(const uint8_t *p)
{
    uint32_t word;
    memcpy(&word, p, sizeof word);
    return (uint32_t)random_word(2, word, 0);
}

static uint64_t rapidhash_load8_(const uint8_t *p)
{
    uint64_t word;
    memcpy(&word, p, sizeof word);
    return random_word(1, word, 0);
}

static void rapidhash_multiply_(uint64_t a, uint64_t b, uint64_t *low, uint64_t *high)
{
    *low = random_word(3, a < b ? a : b, a < b ? b : a);
    *high = random_word(4, a < b ? a : b, a < b ? b : a);
}
