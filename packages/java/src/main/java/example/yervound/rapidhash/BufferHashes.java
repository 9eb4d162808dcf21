// Made by scripts/java_buffers from Hashes.java.
package example.yervound.rapidhash;

import java.nio.ByteBuffer;

import static example.yervound.rapidhash.Primitives.high;
import static example.yervound.rapidhash.Primitives.low;
import static example.yervound.rapidhash.Primitives.mix;
import static example.yervound.rapidhash.Primitives.read32;
import static example.yervound.rapidhash.Primitives.read64;
import static example.yervound.rapidhash.Primitives.read8;

/** The hashes of n bytes at an index of a buffer, which the callers have checked. */
final class BufferHashes {
    /** Every second bit. */
    static final long ALTERNATING = 0xaaaaaaaaaaaaaaaaL;

    private BufferHashes() {}

    /** Returns the mix of a product's halves, each after its mask. */
    private static long mixTwice(long a, long b, long lowMask, long highMask) {
        return mix(low(a, b) ^ lowMask, high(a, b) ^ highMask);
    }

    static long v1(ByteBuffer data, int at, int n, long seed, SeedAndSecrets s) {
        long a = 0, b = 0;
        int last = at + n - 4;
        if (n > 16) {
            return v1Long(data, at, n, seed ^ n, s);
        } else if (n >= 8) {
            a = read32(data, at) << 32 | read32(data, last);
            b = read32(data, at + 4) << 32 | read32(data, last - 4);
        } else if (n >= 4) {
            a = read32(data, at) << 32 | read32(data, last);
            b = a;
        } else if (n > 0) {
            a = threeBytes(data, at, n);
        }
        return mixTwice(a ^ s.s1, b ^ seed ^ n, s.s0 ^ n, s.s1);
    }

    private static long v1Long(ByteBuffer data, int at, int n, long start, SeedAndSecrets s) {
        int end = at + n;
        int tail = at;
        long seed = start;
        if (n > 48) {
            Lanes lanes = new Lanes(seed);
            tail = fold(lanes, data, at, end, 0, 3, s);
            seed = lanes.joined();
        }
        if (end - tail > 16) {
            seed ^= s.s1;
        }
        seed = foldTwo(data, tail, end, seed, s.s2);
        return mixTwice(read64(data, end - 16) ^ s.s1, read64(data, end - 8) ^ seed, s.s0 ^ n, s.s1);
    }

    static long v2(ByteBuffer data, int at, int n, int minor, long seed, SeedAndSecrets s) {
        long a = 0, b = 0;
        if (n > 16) {
            return v2Long(data, at, n, minor, seed ^ n, s);
        } else if (n >= 8) {
            a = read64(data, at);
            b = read64(data, at + n - 8);
        } else if (n >= 4) {
            a = read32(data, at);
            b = read32(data, at + n - 4);
        } else if (n > 0 && minor == 2) {
            a = read8(data, at) << 56 | read8(data, at + n - 1);
            b = read8(data, at + n / 2);
        } else if (n > 0) {
            a = threeBytes(data, at, n);
        }
        return mixTwice(a ^ s.s1, b ^ seed ^ n, ALTERNATING ^ n, s.s1);
    }

    private static long v2Long(ByteBuffer data, int at, int n, int minor, long start, SeedAndSecrets s) {
        int end = at + n;
        long seed = start;
        if (n > (minor == 0 ? 56 : 64)) {
            Lanes lanes = new Lanes(seed);
            int tail = fold(lanes, data, at, end, 0, 7, s);
            tail = fold(lanes, data, tail, end, 0, 3, s);
            seed = foldTwo(data, tail, end, lanes.joined(), s.s2);
        } else {
            seed = mix(read64(data, at) ^ s.s0, read64(data, at + 8) ^ seed);
            if (n > 32) {
                seed = mix(read64(data, at + 16) ^ s.s1, read64(data, at + 24) ^ seed);
            }
            if (n > 48) {
                seed = mix(read64(data, at + 32) ^ (minor == 2 ? s.s1 : s.s0), read64(data, at + 40) ^ seed);
            }
        }
        return mixTwice(read64(data, end - 16) ^ s.s1, read64(data, end - 8) ^ seed, ALTERNATING ^ n, s.s1);
    }

    /** Returns the hash of V3 or a relative, by its number of lanes. */
    static long v3(ByteBuffer data, int at, int n, int count, long start, SeedAndSecrets s) {
        long a = 0, b = 0;
        long seed = start;
        if (n > 16) {
            return v3Long(data, at, n, count, seed, s);
        } else if (n >= 8) {
            seed ^= n;
            a = read64(data, at);
            b = read64(data, at + n - 8);
        } else if (n >= 4) {
            seed ^= n;
            a = read32(data, at);
            b = read32(data, at + n - 4);
        } else if (n > 0) {
            a = read8(data, at) << 45 | read8(data, at + n - 1);
            b = read8(data, at + n / 2);
        }
        return mixTwice(a ^ s.s1, b ^ seed, ALTERNATING, s.s1 ^ n);
    }

    private static long v3Long(ByteBuffer data, int at, int n, int count, long seed, SeedAndSecrets s) {
        if (n <= 16 * count) {
            return v3Close(data, at, at + n, seed, s);
        }
        Lanes lanes = new Lanes(seed);
        int tail = fold(lanes, data, at, at + n, 1, count, s);
        return v3Close(data, tail, at + n, lanes.joined(), s);
    }

    /** Returns the hash from the joined lanes and the tail, before whose end are the message's last 16 bytes. */
    static long v3Close(ByteBuffer data, int at, int end, long joined, SeedAndSecrets s) {
        int t = end - at;
        long seed = foldTwo(data, at, end, joined, s.s2);
        if (t > 48) {
            seed = foldTwo(data, at + 32, end, seed, s.s1);
        }
        if (t > 80) {
            seed = mix(read64(data, at + 64) ^ s.s2, read64(data, at + 72) ^ seed);
        }
        if (t > 96) {
            seed = mix(read64(data, at + 80) ^ s.s1, read64(data, at + 88) ^ seed);
        }
        return mixTwice(read64(data, end - 16) ^ t ^ s.s1, read64(data, end - 8) ^ seed, ALTERNATING, s.s1 ^ t);
    }

    /** Returns the seed after up to two pairs, which the last 1 to 16 bytes before the end are no part of. */
    private static long foldTwo(ByteBuffer data, int at, int end, long start, long secret) {
        long seed = start;
        if (end - at > 16) {
            seed = mix(read64(data, at) ^ secret, read64(data, at + 8) ^ seed);
        }
        if (end - at > 32) {
            seed = mix(read64(data, at + 16) ^ secret, read64(data, at + 24) ^ seed);
        }
        return seed;
    }

    private static long threeBytes(ByteBuffer data, int at, int n) {
        return read8(data, at) << 56 | read8(data, at + n / 2) << 32 | read8(data, at + n - 1);
    }

    /** Folds rows of one pair for each of count lanes. Returns the index after them, which leaves the least bytes. */
    static int fold(Lanes lanes, ByteBuffer data, int at, int end, int least, int count, SeedAndSecrets s) {
        int row = 16 * count;
        int stop = at + (end - at - least) / row * row;
        if (count == 7) {
            fold7(lanes, data, at, stop, s);
        } else if (count == 5) {
            fold5(lanes, data, at, stop, s);
        } else {
            fold3(lanes, data, at, stop, s);
        }
        return stop;
    }

    private static void fold7(Lanes lanes, ByteBuffer data, int start, int stop, SeedAndSecrets s) {
        long a = lanes.l0, b = lanes.l1, c = lanes.l2, d = lanes.l3, e = lanes.l4, f = lanes.l5, g = lanes.l6;
        for (int at = start; at < stop; at += 112) {
            a = mix(read64(data, at) ^ s.s0, read64(data, at + 8) ^ a);
            b = mix(read64(data, at + 16) ^ s.s1, read64(data, at + 24) ^ b);
            c = mix(read64(data, at + 32) ^ s.s2, read64(data, at + 40) ^ c);
            d = mix(read64(data, at + 48) ^ s.s3, read64(data, at + 56) ^ d);
            e = mix(read64(data, at + 64) ^ s.s4, read64(data, at + 72) ^ e);
            f = mix(read64(data, at + 80) ^ s.s5, read64(data, at + 88) ^ f);
            g = mix(read64(data, at + 96) ^ s.s6, read64(data, at + 104) ^ g);
        }
        lanes.l0 = a;
        lanes.l1 = b;
        lanes.l2 = c;
        lanes.l3 = d;
        lanes.l4 = e;
        lanes.l5 = f;
        lanes.l6 = g;
    }

    private static void fold5(Lanes lanes, ByteBuffer data, int start, int stop, SeedAndSecrets s) {
        long a = lanes.l0, b = lanes.l1, c = lanes.l2, d = lanes.l3, e = lanes.l4;
        for (int at = start; at < stop; at += 80) {
            a = mix(read64(data, at) ^ s.s0, read64(data, at + 8) ^ a);
            b = mix(read64(data, at + 16) ^ s.s1, read64(data, at + 24) ^ b);
            c = mix(read64(data, at + 32) ^ s.s2, read64(data, at + 40) ^ c);
            d = mix(read64(data, at + 48) ^ s.s3, read64(data, at + 56) ^ d);
            e = mix(read64(data, at + 64) ^ s.s4, read64(data, at + 72) ^ e);
        }
        lanes.l0 = a;
        lanes.l1 = b;
        lanes.l2 = c;
        lanes.l3 = d;
        lanes.l4 = e;
    }

    private static void fold3(Lanes lanes, ByteBuffer data, int start, int stop, SeedAndSecrets s) {
        long a = lanes.l0, b = lanes.l1, c = lanes.l2;
        for (int at = start; at < stop; at += 48) {
            a = mix(read64(data, at) ^ s.s0, read64(data, at + 8) ^ a);
            b = mix(read64(data, at + 16) ^ s.s1, read64(data, at + 24) ^ b);
            c = mix(read64(data, at + 32) ^ s.s2, read64(data, at + 40) ^ c);
        }
        lanes.l0 = a;
        lanes.l1 = b;
        lanes.l2 = c;
    }
}
