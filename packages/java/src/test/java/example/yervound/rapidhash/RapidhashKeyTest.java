package example.yervound.rapidhash;

import static org.junit.Assert.assertEquals;
import static org.junit.Assert.assertNotEquals;
import static org.junit.Assert.assertThrows;

import java.nio.ByteBuffer;
import java.nio.ByteOrder;
import java.nio.CharBuffer;
import java.nio.charset.StandardCharsets;
import org.junit.Test;

/** Tests the kinds of fields, and what is no field. */
public class RapidhashKeyTest {
    private static final long USER = Long.parseUnsignedLong("14742763072502883419");

    @Test
    public void kindsOfFields() {
        byte[] user = "user".getBytes(StandardCharsets.UTF_8);
        ByteBuffer direct = ByteBuffer.allocateDirect(6).put((byte) 0).put(user).put((byte) 0);
        direct.position(1).limit(5);
        Object[] texts = {
            "user", new StringBuilder("user"), CharBuffer.wrap("user"), user, ByteBuffer.wrap(user), direct
        };
        for (Object text : texts) {
            for (Object number : new Object[] {4711, 4711L, (short) 4711}) {
                assertEquals(USER, RapidhashKey.hash(text, number, null));
            }
        }
        assertEquals(1, direct.position());
        assertEquals(RapidhashKey.hash(new Object[] {null}), RapidhashKey.hash((Object) null));
        assertEquals(RapidhashKey.hash((byte) -1), RapidhashKey.hash(-1L));
        assertEquals(RapidhashKey.hash("中文"), RapidhashKey.hash((Object) "中文".getBytes(StandardCharsets.UTF_8)));
        assertEquals(Rapidhash.V3.hash(new byte[0]), RapidhashKey.hash());
        assertNotEquals(RapidhashKey.hash("ab", "c"), RapidhashKey.hash("a", "bc"));
    }

    /** Compares keys of all lengths up to some 1,200 bytes with the hashes of their encodings. */
    @Test
    public void longKeys() {
        for (int size = 0; size < 300; size++) {
            byte[] bytes = Messages.bytes(size);
            String text = "x".repeat(size);
            ByteBuffer encoded = ByteBuffer.allocate(2000).order(ByteOrder.LITTLE_ENDIAN).put((byte) 1).putLong(-size);
            for (byte[] field : new byte[][] {bytes, bytes, text.getBytes(StandardCharsets.US_ASCII), bytes}) {
                encoded.put((byte) 2).putLong(size).put(field);
            }
            long known = Rapidhash.V3.hash(encoded.put((byte) 0).flip(), 7L);
            ByteBuffer direct = ByteBuffer.allocateDirect(size).put(bytes).flip();
            assertEquals("" + size, known, RapidhashKey.hashWithSeed(7, -size, bytes, direct, text, bytes, null));
        }
    }

    @Test
    public void whatIsNoField() {
        IllegalArgumentException e = assertThrows(IllegalArgumentException.class, () -> RapidhashKey.hash("a\ud800"));
        assertEquals("fields[0] has half of a surrogate pair", e.getMessage());
        RapidhashTest.names("secrets", () -> RapidhashKey.hashWithSecrets(null, 1));
        RapidhashTest.names("fields", () -> RapidhashKey.hash((Object[]) null));
    }
}
