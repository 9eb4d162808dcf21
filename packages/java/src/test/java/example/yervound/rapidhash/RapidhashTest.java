package example.yervound.rapidhash;

import static example.yervound.rapidhash.Messages.OWN;
import static example.yervound.rapidhash.Messages.OWN_V1;
import static org.junit.Assert.assertArrayEquals;
import static org.junit.Assert.assertEquals;
import static org.junit.Assert.assertNotEquals;
import static org.junit.Assert.assertThrows;
import static org.junit.Assert.assertTrue;

import com.sun.management.ThreadMXBean;
import java.lang.invoke.MethodHandles;
import java.lang.management.ManagementFactory;
import java.lang.reflect.Method;
import java.nio.ByteBuffer;
import java.nio.ByteOrder;
import java.nio.charset.StandardCharsets;
import java.util.Arrays;
import java.util.Collections;
import java.util.List;
import java.util.concurrent.Callable;
import java.util.concurrent.ExecutorService;
import java.util.concurrent.Executors;
import java.util.concurrent.Future;
import org.junit.Test;

public class RapidhashTest {
    private static final byte[] HELLO = "hello".getBytes(StandardCharsets.UTF_8);

    /** The calls are those of README.md. */
    @Test
    public void readme() {
        assertEquals("3327445792987248966", Rapidhash.toDecimal(Rapidhash.V3.hash(HELLO, 0L)));
        assertNotEquals(Rapidhash.V3.hash(HELLO), Rapidhash.V3.hash(HELLO, Secrets.make(42)));
        assertEquals("14742763072502883419", Rapidhash.toDecimal(RapidhashKey.hash("user", 4711, null)));
        RapidhashStream stream = Rapidhash.V3.stream();
        stream.update(HELLO);
        assertEquals("2e2d7651b45f7946", Rapidhash.toHex(stream.getValue()));
        Rapidhash.V3.stream().restore(stream.save());
        assertThrows(IndexOutOfBoundsException.class, () -> Rapidhash.V3.hash(HELLO, 3, HELLO.length));
    }

    @Test
    public void buffersStayAsTheyAre() {
        for (ByteBuffer buffer : Messages.buffers(HELLO)) {
            int position = buffer.position();
            int limit = buffer.limit();
            buffer.order(ByteOrder.BIG_ENDIAN).mark();
            assertEquals(3327445792987248966L, Rapidhash.V3.hash(buffer));
            buffer.order(ByteOrder.LITTLE_ENDIAN);
            assertEquals(3327445792987248966L, Rapidhash.V3.hash(buffer));
            assertEquals(position, buffer.position());
            assertEquals(limit, buffer.limit());
            assertEquals(position, buffer.reset().position());
        }
    }

    /** Checks that calls allocate at most 512 bytes at any length, as they do for lanes until the code is compiled. */
    @Test
    public void nothingIsCopied() {
        for (Rapidhash<?> version : Rapidhash.ALL) {
            for (int length : new int[] {0, 3, 16, 100, 1 << 20}) {
                allocatesLittle(version, new byte[length]);
            }
        }
    }

    private static <S extends SeedAndSecrets> void allocatesLittle(Rapidhash<S> version, byte[] bytes) {
        S own = Messages.own(version);
        allocatesLittle(version, () -> version.hash(bytes));
        allocatesLittle(version, () -> version.hash(bytes, 0, bytes.length, 7L));
        allocatesLittle(version, () -> version.hash(bytes, own));
        for (ByteBuffer buffer : Messages.buffers(bytes)) {
            allocatesLittle(version, () -> version.hash(buffer, own));
            if (RapidhashStreamTest.STREAMED.contains(version)) {
                RapidhashStream stream = version.stream();
                allocatesLittle(version, () -> stream.update(buffer.rewind()));
                allocatesLittle(version, () -> stream.update(bytes));
                allocatesLittle(version, () -> stream.update(7));
                allocatesLittle(version, stream::getValue);
                allocatesLittle(version, stream::reset);
            }
        }
    }

    private static void allocatesLittle(Rapidhash<?> version, Runnable call) {
        ThreadMXBean counter = (ThreadMXBean) ManagementFactory.getThreadMXBean();
        long thread = Thread.currentThread().getId();
        call.run();
        long before = counter.getThreadAllocatedBytes(thread);
        call.run();
        long count = counter.getThreadAllocatedBytes(thread) - before;
        assertTrue(version + " allocates " + count + " bytes", count <= 512);
    }

    @Test
    public void rangesWithinTheArray() {
        int[][] ranges = {{-1, 2}, {0, 6}, {6, 0}, {3, 3}, {0, -1}, {Integer.MAX_VALUE, 1}, {1, Integer.MAX_VALUE}};
        for (int[] range : ranges) {
            for (Rapidhash<?> version : Rapidhash.ALL) {
                refuses(version, range[0], range[1]);
            }
            refuses(() -> Rapidhash.V3.stream().update(HELLO, range[0], range[1]));
        }
        assertEquals(Rapidhash.V3.hash(new byte[0]), Rapidhash.V3.hash(HELLO, 5, 0));
        RapidhashStream stream = Rapidhash.V3.stream();
        stream.update(Messages.bytes(300));
        refuses(() -> stream.update(Messages.bytes(300), 100, 300));
        assertEquals(Rapidhash.V3.hash(Messages.bytes(300)), stream.getValue());
    }

    private static <S extends SeedAndSecrets> void refuses(Rapidhash<S> version, int offset, int length) {
        refuses(() -> version.hash(HELLO, offset, length));
        refuses(() -> version.hash(HELLO, offset, length, 1L));
        refuses(() -> version.hash(HELLO, offset, length, Messages.own(version)));
    }

    private static void refuses(org.junit.function.ThrowingRunnable call) {
        assertThrows(IndexOutOfBoundsException.class, call);
    }

    @Test
    public void nullsAreNamed() {
        Rapidhash<Secrets> v3 = Rapidhash.V3;
        names("bytes", () -> v3.hash((byte[]) null));
        names("bytes", () -> v3.hash((byte[]) null, 1L));
        names("bytes", () -> v3.hash((byte[]) null, OWN));
        names("bytes", () -> v3.hash(null, 0, 0));
        names("buffer", () -> v3.hash((ByteBuffer) null));
        names("buffer", () -> v3.hash((ByteBuffer) null, 1L));
        names("secrets", () -> v3.hash(HELLO, null));
        names("secrets", () -> v3.hash(HELLO, 0, 5, null));
        names("secrets", () -> v3.hash(ByteBuffer.wrap(HELLO), null));
        names("secrets", () -> v3.stream(null));
        names("secrets", () -> Secrets.of(1, (long[]) null));
        names("secrets", () -> SecretsV1.of(1, (long[]) null));
        names("bytes", () -> v3.stream().update((byte[]) null));
        names("bytes", () -> v3.stream().update(null, 0, 0));
        names("buffer", () -> v3.stream().update((ByteBuffer) null));
    }

    static void names(String argument, org.junit.function.ThrowingRunnable call) {
        assertEquals(argument, assertThrows(NullPointerException.class, call).getMessage());
    }

    @Test
    public void secretsAreValues() {
        assertEquals(Secrets.make(7), Secrets.make(7));
        assertEquals(Secrets.make(7).hashCode(), Secrets.make(7).hashCode());
        assertNotEquals(Secrets.make(7), Secrets.make(8));
        assertNotEquals(Secrets.make(7).hashCode(), Secrets.make(8).hashCode());
        assertNotEquals(OWN, OWN.toString());
        for (int place = 0; place < 8; place++) {
            long[] words = {1, 2, 3, 5, 7, 11, 13, 17};
            words[place] ^= 1L << 32;
            differ(Secrets.of(words[0], Arrays.copyOfRange(words, 1, 8)), OWN);
            if (place < 4) {
                differ(SecretsV1.of(words[0], Arrays.copyOfRange(words, 1, 4)), OWN_V1);
            }
        }
        assertNotEquals(Secrets.of(0, 2, 3, 5, 7, 11, 13, 17), Secrets.of(0x100000001L, 2, 3, 5, 7, 11, 13, 17));
        assertNotEquals(Secrets.of(1, 0, 3, 5, 7, 11, 13, 17), Secrets.of(1, 0x100000001L, 3, 5, 7, 11, 13, 17));
        OWN.secrets()[0] = 9;
        assertArrayEquals(new long[] {2, 3, 5, 7, 11, 13, 17}, OWN.secrets());
        assertEquals("Secrets[hidden]", OWN.toString());
        for (int count : new int[] {0, 2, 4, 6, 8}) {
            Exception refused = assertThrows(IllegalArgumentException.class, () -> Secrets.of(1, new long[count]));
            assertEquals("7 secrets are needed, not " + count, refused.getMessage());
            refused = assertThrows(IllegalArgumentException.class, () -> SecretsV1.of(1, new long[count]));
            assertEquals("3 secrets are needed, not " + count, refused.getMessage());
        }
    }

    /** Checks that secrets are not equal and have different hash codes. */
    private static void differ(SeedAndSecrets one, SeedAndSecrets other) {
        assertNotEquals(one, other);
        assertNotEquals(one.hashCode(), other.hashCode());
    }

    @Test
    public void secretsOfV1AreValues() {
        assertEquals(SecretsV1.of(1, 2, 3, 5), OWN_V1);
        assertEquals(SecretsV1.of(1, 2, 3, 5).hashCode(), OWN_V1.hashCode());
        assertNotEquals(Secrets.of(1, 2, 3, 5, 0, 0, 0, 0), OWN_V1);
        OWN_V1.secrets()[0] = 9;
        assertArrayEquals(new long[] {2, 3, 5}, OWN_V1.secrets());
        assertEquals(1, OWN_V1.seed());
        assertEquals("SecretsV1[hidden]", OWN_V1.toString());
    }

    @Test
    public void threads() throws Exception {
        byte[] message = Messages.bytes(500);
        List<ByteBuffer> buffers = Messages.buffers(message);
        Callable<Long> all = () -> sumOfAll(message, buffers);
        Long known = all.call();
        ExecutorService four = Executors.newFixedThreadPool(4);
        try {
            for (Future<Long> sum : four.invokeAll(Collections.nCopies(1000, all))) {
                assertEquals(known, sum.get());
            }
        } finally {
            four.shutdown();
        }
    }

    /** Returns a number that depends on all hashes of a message, also in two pieces, and of buffers. */
    private static long sumOfAll(byte[] message, List<ByteBuffer> buffers) {
        long sum = Arrays.hashCode(Secrets.make(7).secrets());
        for (Rapidhash<?> version : Rapidhash.ALL) {
            sum += sumOf(version, message, buffers);
        }
        return sum;
    }

    private static <S extends SeedAndSecrets> long sumOf(Rapidhash<S> version, byte[] message,
            List<ByteBuffer> buffers) {
        S own = Messages.own(version);
        long sum = 0;
        for (int n = 0; n <= message.length; n += 50) {
            sum += version.hash(message, 0, n) + version.hash(message, 0, n, 7L) + version.hash(message, 0, n, own);
            sum += version.hash(n) + version.hash("text") + RapidhashKey.hash("text", n, message);
            if (RapidhashStreamTest.STREAMED.contains(version)) {
                RapidhashStream stream = version.stream(own);
                stream.update(message, 0, n);
                stream.update(buffers.get(n % buffers.size()).duplicate());
                sum += stream.getValue();
            }
        }
        for (ByteBuffer buffer : buffers) {
            sum += version.hash(buffer) + version.hash(buffer, 7L) + version.hash(buffer, own);
        }
        return sum;
    }

    @Test
    public void theListOfVersionsDoesNotChange() {
        assertThrows(UnsupportedOperationException.class, () -> Rapidhash.ALL.sort(null));
    }

    /** Programs that call by reflection need methods whose class is public. */
    @Test
    public void reflection() throws Exception {
        int count = 0;
        for (Class<?> type : List.of(Rapidhash.class, RapidhashKey.class, RapidhashShards.class, RapidhashStream.class,
            SeedAndSecrets.class, Secrets.class, SecretsV1.class, Rapidhash.V3.getClass())) {
            for (Method method : type.getMethods()) {
                MethodHandles.publicLookup().unreflect(method);
                count += method.getName().equals("hash") ? 1 : 0;
            }
        }
        assertEquals(2 * 21 + 1, count);
    }

    @Test
    public void texts() {
        assertEquals("18446744073709551615", Rapidhash.toDecimal(-1));
        assertEquals("ffffffffffffffff", Rapidhash.toHex(-1));
        assertEquals("0000000000000000", Rapidhash.toHex(0));
        assertEquals("000000000000002a", Rapidhash.toHex(42));
    }
}
