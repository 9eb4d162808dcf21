package example.yervound.rapidhash;

import java.nio.ByteBuffer;
import java.nio.ByteOrder;

/**
 * Loads and a product that are random functions of a key. Two programs that then return the same hash of a random
 * message compute the same formula, except with probability 2^-64. This class replaces the package's.
 */
final class Primitives {
    static long key;

    private Primitives() {}

    /** Returns a number that depends on the key, a tag for the kind of function, and two arguments. */
    private static long random(long tag, long a, long b) {
        return round(round(key ^ tag * 0x9e3779b97f4a7c15L, a), b);
    }

    private static long round(long state, long word) {
        long x = state ^ word;
        x = (x ^ x >>> 32) * 0xd6e8feb86659fd93L;
        x = (x ^ x >>> 32) * 0xd6e8feb86659fd93L;
        return x ^ x >>> 32;
    }

    static byte[] bytes(long number) {
        return ByteBuffer.allocate(8).order(ByteOrder.LITTLE_ENDIAN).putLong(number).array();
    }

    private static long bytes(Object data, int at, int count) {
        long word = 0;
        for (int place = count - 1; place >= 0; place--) {
            word = word << 8 | read8(data, at + place);
        }
        return word;
    }

    static long read64(Object data, int at) {
        return random(1, bytes(data, at, 8), 0);
    }

    static long read32(Object data, int at) {
        return random(2, bytes(data, at, 4), 0) & 0xffffffffL;
    }

    static long read8(Object data, int at) {
        return (data instanceof byte[] ? ((byte[]) data)[at] : ((ByteBuffer) data).get(at)) & 0xffL;
    }

    /** Returns the same number for either order of the factors. */
    private static long product(long tag, long a, long b) {
        return Long.compareUnsigned(a, b) < 0 ? random(tag, a, b) : random(tag, b, a);
    }

    static long low(long a, long b) {
        return product(3, a, b);
    }

    static long high(long a, long b) {
        return product(4, a, b);
    }

    static long mix(long a, long b) {
        return low(a, b) ^ high(a, b);
    }
}
