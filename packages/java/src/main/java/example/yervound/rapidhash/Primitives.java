package example.yervound.rapidhash;

import java.lang.invoke.MethodHandles;
import java.lang.invoke.VarHandle;
import java.nio.ByteBuffer;
import java.nio.ByteOrder;

/** The loads from a byte array or a {@link ByteBuffer}, and the product. Each load checks its bounds. */
final class Primitives {
    private static final ByteOrder ORDER = ByteOrder.LITTLE_ENDIAN;
    private static final VarHandle LONGS = MethodHandles.byteArrayViewVarHandle(long[].class, ORDER);
    private static final VarHandle INTS = MethodHandles.byteArrayViewVarHandle(int[].class, ORDER);
    private static final VarHandle BUFFER_LONGS = MethodHandles.byteBufferViewVarHandle(long[].class, ORDER);
    private static final VarHandle BUFFER_INTS = MethodHandles.byteBufferViewVarHandle(int[].class, ORDER);

    private Primitives() {}

    /** Returns the little-endian number in the 8 bytes at an index. */
    static long read64(byte[] data, int at) {
        return (long) LONGS.get(data, at);
    }

    static long read64(ByteBuffer data, int at) {
        return (long) BUFFER_LONGS.get(data, at);
    }

    /** Returns the little-endian number in the 4 bytes at an index. */
    static long read32(byte[] data, int at) {
        return (int) INTS.get(data, at) & 0xffffffffL;
    }

    static long read32(ByteBuffer data, int at) {
        return (int) BUFFER_INTS.get(data, at) & 0xffffffffL;
    }

    /** Returns the byte at an index, from 0 to 255. */
    static long read8(byte[] data, int at) {
        return data[at] & 0xffL;
    }

    static long read8(ByteBuffer data, int at) {
        return data.get(at) & 0xffL;
    }

    /** Returns the 8 bytes of a number, least significant first. */
    static byte[] bytes(long number) {
        byte[] bytes = new byte[8];
        LONGS.set(bytes, 0, number);
        return bytes;
    }

    /** Returns the low half of the product of two words. */
    static long low(long a, long b) {
        return a * b;
    }

    /** Returns the high half of the product of two unsigned words. */
    static long high(long a, long b) {
        return Product.high(a, b);
    }

    /** Returns the XOR of the halves of a product. */
    static long mix(long a, long b) {
        return low(a, b) ^ high(a, b);
    }
}
