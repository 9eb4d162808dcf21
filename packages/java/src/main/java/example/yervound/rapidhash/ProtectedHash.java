package example.yervound.rapidhash;

import static example.yervound.rapidhash.Primitives.high;
import static example.yervound.rapidhash.Primitives.low;
import static example.yervound.rapidhash.Primitives.read32;
import static example.yervound.rapidhash.Primitives.read64;
import static example.yervound.rapidhash.Primitives.read8;

/** V3 with protected products: each half is XORed with a factor, so that a factor of 0 does not erase the other. */
final class ProtectedHash {
    private ProtectedHash() {}

    static long v3(byte[] data, int at, int n, long start, SeedAndSecrets s) {
        long a = 0, b = 0;
        long seed = start;
        long t = n;
        if (n > 16) {
            t = (n - 1) % 112 + 1;
            seed = afterTail(data, at, n, start, s);
            a = read64(data, at + n - 16) ^ t;
            b = read64(data, at + n - 8);
        } else if (n >= 8) {
            seed ^= n;
            a = read64(data, at);
            b = read64(data, at + n - 8);
        } else if (n >= 4) {
            seed ^= n;
            a = read32(data, at);
            b = read32(data, at + n - 4);
        } else if (n > 0) {
            a = read8(data, at) << 45 | read8(data, at + n - 1);
            b = read8(data, at + n / 2);
        }
        a ^= s.s1;
        b ^= seed;
        return mix(low(a, b) ^ a ^ Hashes.ALTERNATING, high(a, b) ^ b ^ s.s1 ^ t);
    }

    private static long mix(long a, long b) {
        return low(a, b) ^ a ^ high(a, b) ^ b;
    }

    /** Returns the seed after all pairs but the last words: the rows' pairs, and then the tail's. */
    private static long afterTail(byte[] data, int start, int n, long seed, SeedAndSecrets s) {
        long[] lanes = {seed, seed, seed, seed, seed, seed, seed};
        long[] secrets = s.secrets();
        long[] order = {s.s2, s.s2, s.s1, s.s1, s.s2, s.s1};
        int pairs = (n - 1) / 112 * 7;
        for (int pair = 0; pair < pairs; pair++) {
            int lane = pair % 7;
            lanes[lane] = fold(data, start + 16 * pair, lanes[lane], secrets[lane]);
        }
        long joined = lanes[0] ^ lanes[1] ^ lanes[2] ^ lanes[3] ^ lanes[4] ^ lanes[5] ^ lanes[6];
        for (int pair = pairs; 16 * pair < n - 16; pair++) {
            joined = fold(data, start + 16 * pair, joined, order[pair - pairs]);
        }
        return joined;
    }

    private static long fold(byte[] data, int at, long lane, long secret) {
        return mix(read64(data, at) ^ secret, read64(data, at + 8) ^ lane);
    }
}
