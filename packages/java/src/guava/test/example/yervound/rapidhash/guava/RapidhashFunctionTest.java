package example.yervound.rapidhash.guava;

import static java.nio.charset.StandardCharsets.UTF_8;
import static org.junit.Assert.assertEquals;
import static org.junit.Assert.assertThrows;

import com.google.common.hash.Funnels;
import com.google.common.hash.HashCode;
import com.google.common.hash.HashFunction;
import com.google.common.hash.Hashing;
import com.google.common.hash.HashingInputStream;
import com.google.common.io.ByteSource;
import com.google.common.io.ByteStreams;
import example.yervound.rapidhash.Rapidhash;
import example.yervound.rapidhash.Secrets;
import java.io.ByteArrayInputStream;
import java.io.IOException;
import java.nio.ByteBuffer;
import java.nio.ByteOrder;
import java.nio.file.Files;
import java.nio.file.Path;
import java.util.List;
import java.util.function.Function;
import java.util.stream.IntStream;
import org.junit.Test;

/** Tests the function with the vectors, by Guava's rules, and in Guava's own classes. */
public class RapidhashFunctionTest {
    private static final List<Rapidhash<Secrets>> VERSIONS =
        List.of(Rapidhash.V3, Rapidhash.V3_MICRO, Rapidhash.V3_NANO);
    private static final Secrets OWN = Secrets.of(1, 2, 3, 5, 7, 11, 13, 17);
    private static final byte[] HELLO = "hello".getBytes(UTF_8);
    private static final HashFunction V3 = new RapidhashFunction(Rapidhash.V3, Secrets.ofSeed(0));

    /** Compares the cases of V3 that the default secrets have. */
    @Test
    public void vectors() throws IOException {
        int count = 0;
        for (String line : Files.readAllLines(Path.of("crates", "test_replay", "data", "cases.tsv"))) {
            String[] columns = line.split("\t");
            if (line.startsWith("hash\tv3\tdefault\t") && !columns[3].contains(":")) {
                byte[] message = bytesOf(columns[3].replace("-", ""));
                int half = message.length / 2;
                HashCode known = HashCode.fromLong(Long.parseUnsignedLong(columns[4]));
                assertEquals(known, V3.hashBytes(message));
                assertEquals(known, V3.newHasher().putBytes(message, 0, half)
                    .putBytes(message, half, message.length - half).hash());
                count++;
            }
        }
        assertEquals(67, count);
    }

    private static byte[] bytesOf(String digits) {
        byte[] bytes = new byte[digits.length() / 2];
        for (int at = 0; at < bytes.length; at++) {
            bytes[at] = (byte) Integer.parseInt(digits.substring(2 * at, 2 * at + 2), 16);
        }
        return bytes;
    }

    /** Checks by Guava's SHA-256 that a call hashes these bytes, and that the function's hash is that of the bytes. */
    private static void compare(String digits, Function<HashFunction, HashCode> call) {
        byte[] bytes = bytesOf(digits);
        assertEquals(Hashing.sha256().hashBytes(bytes), call.apply(Hashing.sha256()));
        for (Rapidhash<Secrets> version : VERSIONS) {
            assertEquals(version.hash(bytes, OWN), call.apply(new RapidhashFunction(version, OWN)).asLong());
        }
    }

    @Test
    @SuppressWarnings("deprecation")
    public void rulesOfGuava() {
        compare("", f -> f.newHasher(7).hash());
        compare("fe0100", f -> f.newHasher().putByte((byte) -2).putBoolean(true).putBoolean(false).hash());
        compare("02812d4e", f -> f.newHasher().putShort((short) 0x8102).putChar('\u4e2d').hash());
        compare("6100fe00", f -> f.newHasher().putChar('a').putShort((short) 0xfe).hash());
        compare("010203840102030405060788",
            f -> f.newHasher().putInt(0x84030201).putLong(0x8807060504030201L).hash());
        compare("0000c03f00000000000000c0", f -> f.newHasher().putFloat(1.5f).putDouble(-2).hash());
        compare("0100c07f010000000000f87f", f -> f.newHasher().putFloat(Float.intBitsToFloat(0x7fc00001))
            .putDouble(Double.longBitsToDouble(0x7ff8000000000001L)).hash());
        compare("61002d4e", f -> f.newHasher().putUnencodedChars("a\u4e2d").hash());
        compare("61e4b8ad", f -> f.newHasher().putString("a\u4e2d", UTF_8).hash());
        compare("656c6c68656c6c6f", f -> f.newHasher().putBytes(HELLO, 1, 3).putBytes(HELLO).hash());
        compare("686500000000000000", f -> f.newHasher().putByte((byte) 'h')
            .putObject(0x65L, Funnels.longFunnel()).hash());
        compare("61002d4e", f -> f.newHasher().putString("a\u4e2d").hash());
        compare("01020384", f -> f.hashInt(0x84030201));
        compare("0102030405060788", f -> f.hashLong(0x8807060504030201L));
        compare("68656c6c6f", f -> f.hashBytes(HELLO));
        compare("656c6c", f -> f.hashBytes(HELLO, 1, 3));
        compare("61002d4e", f -> f.hashUnencodedChars("a\u4e2d"));
        compare("61002d4e", f -> f.hashString("a\u4e2d"));
        compare("61e4b8ad", f -> f.hashString("a\u4e2d", UTF_8));
        compare("05000000", f -> f.hashObject(5, Funnels.integerFunnel()));
    }

    @Test
    public void buffersAreRead() {
        ByteBuffer direct = ByteBuffer.allocateDirect(7).put((byte) 1).put(HELLO).put((byte) 2);
        for (ByteBuffer buffer : List.of(direct.position(1).limit(6), ByteBuffer.wrap(HELLO))) {
            compare("68656c6c6f", f -> f.hashBytes(buffer.duplicate()));
            compare("68656c6c6f", f -> f.newHasher().putBytes(buffer.duplicate()).hash());
            assertEquals(3327445792987248966L, V3.hashBytes(buffer).asLong());
            assertEquals(0, buffer.remaining());
        }
    }

    @Test
    public void classesOfGuava() throws IOException {
        byte[] message = new byte[100_000];
        HashCode known = HashCode.fromLong(Rapidhash.V3.hash(message));
        assertEquals(64, V3.bits());
        assertEquals(known, ByteSource.wrap(message).hash(V3));
        HashingInputStream input = new HashingInputStream(V3, new ByteArrayInputStream(message));
        ByteStreams.exhaust(input);
        assertEquals(known, input.hash());
        byte[] both = Hashing.concatenating(V3, Hashing.crc32()).hashBytes(HELLO).asBytes();
        assertEquals(3327445792987248966L, ByteBuffer.wrap(both).order(ByteOrder.LITTLE_ENDIAN).getLong());
    }

    @Test
    public void threads() {
        assertEquals(0, IntStream.range(0, 1_000_000).map(i -> i & 127).parallel()
            .filter(i -> !V3.hashInt(i).equals(V3.hashBytes(new byte[] {(byte) i, 0, 0, 0}))).count());
    }

    /** The calls are those of README.md. */
    @Test
    public void readme() {
        HashFunction v3 = new RapidhashFunction(Rapidhash.V3, Secrets.ofSeed(0));
        String name = "hello";
        int server = Hashing.consistentHash(v3.hashString(name, UTF_8), 12);
        assertEquals(Hashing.consistentHash(3327445792987248966L, 12), server);
    }

    @Test
    public void versionsWithoutStreams() {
        for (Rapidhash<Secrets> version : List.of(Rapidhash.V2_2, Rapidhash.V3_PROTECTED)) {
            assertThrows(UnsupportedOperationException.class, () -> new RapidhashFunction(version, OWN));
        }
        assertThrows(NullPointerException.class, () -> new RapidhashFunction(Rapidhash.V3, null));
    }
}
