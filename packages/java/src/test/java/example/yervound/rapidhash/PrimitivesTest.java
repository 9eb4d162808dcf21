package example.yervound.rapidhash;

import static org.junit.Assert.assertEquals;

import java.math.BigInteger;
import java.nio.ByteBuffer;
import java.util.SplittableRandom;
import org.junit.Test;

public class PrimitivesTest {
    /** Words at which a carry, a sign or a half of a product could be wrong. */
    private static final long[] WORDS = {
        0, 1, 2, 3, 0x7fffffffL, 0x80000000L, 0xfffffffeL, 0xffffffffL, 0x100000000L, 0x100000001L, -1L << 32,
        Long.MAX_VALUE, Long.MIN_VALUE, Long.MIN_VALUE + 1, -2, -1, 0x2d358dccaa6c78a5L, 0xdeadbeefcafef00dL
    };

    private static BigInteger number(long word) {
        return new BigInteger(Long.toUnsignedString(word));
    }

    @Test
    public void product() {
        for (long a : WORDS) {
            for (long b : WORDS) {
                long low = Primitives.low(a, b);
                long high = Primitives.high(a, b);
                BigInteger known = number(a).multiply(number(b));
                assertEquals(a + " * " + b, known, number(high).shiftLeft(64).add(number(low)));
                assertEquals(low ^ high, Primitives.mix(a, b));
            }
        }
    }

    /** The upper half of a product, from four products of 32-bit halves. */
    private static long high(long a, long b) {
        long half = 0xffffffffL;
        long cross = (a >>> 32) * (b & half);
        long middle = (a & half) * (b >>> 32) + ((a & half) * (b & half) >>> 32) + (cross & half);
        return (a >>> 32) * (b >>> 32) + (cross >>> 32) + (middle >>> 32);
    }

    /** So many that a product which is wrong for a word in 2^20 is seen. */
    @Test
    public void randomProducts() {
        SplittableRandom random = new SplittableRandom(1);
        for (int i = 0; i < 1 << 24; i++) {
            long a = random.nextLong();
            long b = random.nextLong();
            long known = high(a, b);
            boolean areHalves = Primitives.low(a, b) == a * b && Primitives.high(a, b) == known;
            if (!areHalves || Primitives.mix(a, b) != (a * b ^ known)) {
                throw new AssertionError(a + " * " + b);
            }
        }
    }

    @Test
    public void loads() {
        byte[] stored = {-1, 0x01, (byte) 0x82, 0x03, (byte) 0x84, 0x05, (byte) 0x86, 0x07, (byte) 0x88, -1};
        ByteBuffer direct = ByteBuffer.allocateDirect(stored.length).put(stored);
        assertEquals(0x8807860584038201L, Primitives.read64(stored, 1));
        assertEquals(0x84038201L, Primitives.read32(stored, 1));
        assertEquals(0x05840382L, Primitives.read32(stored, 2));
        assertEquals(0x82, Primitives.read8(stored, 2));
        for (ByteBuffer data : new ByteBuffer[] {direct, ByteBuffer.wrap(stored).asReadOnlyBuffer()}) {
            assertEquals(0x8807860584038201L, Primitives.read64(data, 1));
            assertEquals(0x84038201L, Primitives.read32(data, 1));
            assertEquals(0x05840382L, Primitives.read32(data, 2));
            assertEquals(0x82, Primitives.read8(data, 2));
        }
    }
}
