package example.yervound.rapidhash;

import static example.yervound.rapidhash.Messages.OWN;
import static org.junit.Assert.assertEquals;
import static org.junit.Assert.assertThrows;
import static org.junit.Assert.assertTrue;

import java.io.BufferedInputStream;
import java.io.ByteArrayInputStream;
import java.io.EOFException;
import java.io.FileInputStream;
import java.io.IOException;
import java.io.InputStream;
import java.nio.ByteBuffer;
import java.nio.CharBuffer;
import java.nio.channels.Channels;
import java.nio.channels.FileChannel;
import java.nio.file.Files;
import java.nio.file.Path;
import java.nio.file.StandardOpenOption;
import java.util.Arrays;
import java.util.List;
import org.junit.Test;
import org.junit.function.ThrowingRunnable;

/** Tests the hashes of numbers, texts and inputs. The known values are those of tests/model.py. */
public class ValuesTest {
    private static final byte[] OF_NUMBER = {8, 7, 6, 5, 4, 3, 2, (byte) 0x81};
    private static final long NUMBER = 0x8102030405060708L;
    private static final long SEED = 0x8070605040302010L;
    /** The bytes of the text, whose last letter is half of a surrogate pair. */
    private static final byte[] OF_TEXT = {
        'n', 'a', (byte) 0xc3, (byte) 0xaf, ' ', (byte) 0xe4, (byte) 0xb8, (byte) 0xad, ' ',
        (byte) 0xf0, (byte) 0x9f, (byte) 0x98, (byte) 0x80, '?'
    };
    private static final String TEXT = "na\u00ef \u4e2d \ud83d\ude00\ud83d";

    @Test
    public void numbers() {
        assertEquals(Long.parseUnsignedLong("16027968813187602694"), Rapidhash.V3.hash(5));
        Rapidhash.ALL.forEach(ValuesTest::compareNumbers);
    }

    private static <S extends SeedAndSecrets> void compareNumbers(Rapidhash<S> version) {
        S own = Messages.own(version);
        assertEquals(version.hash(OF_NUMBER), version.hash(NUMBER));
        assertEquals(version.hash(OF_NUMBER, SEED), version.hash(NUMBER, SEED));
        assertEquals(version.hash(OF_NUMBER, own), version.hash(NUMBER, own));
    }

    @Test
    public void texts() {
        assertEquals(3327445792987248966L, Rapidhash.V3.hash("hello"));
        Rapidhash.ALL.forEach(ValuesTest::compareTexts);
    }

    private static <S extends SeedAndSecrets> void compareTexts(Rapidhash<S> version) {
        S own = Messages.own(version);
        for (CharSequence text : List.of(TEXT, new StringBuilder(TEXT), CharBuffer.wrap("<" + TEXT + ">", 1, 10))) {
            assertEquals(version.hash(OF_TEXT), version.hash(text));
            assertEquals(version.hash(OF_TEXT, SEED), version.hash(text, SEED));
            assertEquals(version.hash(OF_TEXT, own), version.hash(text, own));
        }
    }

    /** A letter is a text, also in a box, and no number as Java would take it for. */
    @Test
    public void letters() {
        Character boxed = 'a';
        assertEquals(6457959414642172395L, Rapidhash.V3.hash('a'));
        assertEquals(6457959414642172395L, Rapidhash.V3.hash(boxed));
        Rapidhash.ALL.forEach(ValuesTest::compareLetters);
    }

    private static <S extends SeedAndSecrets> void compareLetters(Rapidhash<S> version) {
        S own = Messages.own(version);
        for (String text : List.of("a", "\u00ef", "\u4e2d", "\ud83d")) {
            char letter = text.charAt(0);
            assertEquals(version.hash(text), version.hash(letter));
            assertEquals(version.hash(text, SEED), version.hash(letter, SEED));
            assertEquals(version.hash(text, own), version.hash(letter, own));
        }
        assertEquals(version.hash((long) 'a'), version.hash('a' + 0));
    }

    /** Reads a message in pieces of 0, 1, 2 bytes, and so on, of which it can claim to have read more. */
    private static final class Pieces extends ByteArrayInputStream {
        private int size, surplus;
        private boolean isClosed;

        Pieces(byte[] bytes) {
            super(bytes);
        }

        @Override
        public synchronized int read(byte[] room, int at, int n) {
            return super.read(room, at, Math.min(n, size++)) + surplus;
        }

        @Override
        public void close() {
            isClosed = true;
        }
    }

    @Test
    public void inputs() throws IOException {
        for (int length : new int[] {0, 1, 16, 113, 8192, 8193, 100_000}) {
            byte[] message = Messages.bytes(length);
            for (Rapidhash<Secrets> version : RapidhashStreamTest.STREAMED) {
                Pieces input = new Pieces(message);
                assertEquals(version.hash(message), version.hash(input));
                assertTrue(!input.isClosed);
                assertEquals(version.hash(message, SEED), version.hash(new Pieces(message), SEED));
                assertEquals(version.hash(message, OWN), version.hash(new Pieces(message), OWN));
                RapidhashStream stream = version.stream(OWN);
                stream.update(new Pieces(Arrays.copyOf(message, length / 2)));
                stream.update(new ByteArrayInputStream(message, length / 2, length));
                input.surplus = 8194;
                assertThrows(IndexOutOfBoundsException.class, () -> stream.update(input));
                assertEquals(version.hash(message, OWN), stream.getValue());
            }
        }
        assertThrows(UnsupportedOperationException.class, () -> Rapidhash.V1.hash(InputStream.nullInputStream()));
    }

    @Test
    public void closedInputs() throws IOException {
        Path file = Files.createTempFile("hello", null);
        FileChannel channel = FileChannel.open(file, StandardOpenOption.READ);
        for (InputStream input : List.of(Files.newInputStream(file), new FileInputStream(file.toFile()),
            InputStream.nullInputStream(), new BufferedInputStream(Channels.newInputStream(channel)))) {
            assertEquals(Rapidhash.V3.hash(""), Rapidhash.V3.hash(input));
            input.close();
            assertThrows(IOException.class, () -> Rapidhash.V3.hash(input));
            assertThrows(IOException.class, () -> Rapidhash.V3.stream().update(input));
        }
        Files.delete(file);
    }

    @Test
    public void failingReads() {
        RapidhashStream stream = Rapidhash.V3.stream();
        InputStream input = new InputStream() {
            private boolean isRead;

            @Override
            public int read() throws IOException {
                if (isRead) {
                    throw new EOFException("no more");
                }
                isRead = true;
                return 'h';
            }

            @Override
            public int read(byte[] room, int at, int n) throws IOException {
                room[at] = (byte) read();
                Rapidhash.V3.hash(new ByteArrayInputStream(new byte[n])); // It has a room of its own.
                return 1;
            }
        };
        assertEquals("no more", assertThrows(IOException.class, () -> stream.update(input)).getMessage());
        stream.update(new byte[] {'e', 'l', 'l', 'o'});
        assertEquals(3327445792987248966L, stream.getValue());
    }

    /** Calls without a type parameter, which the compiler does not check. */
    @Test
    @SuppressWarnings({"unchecked", "rawtypes"})
    public void secretsOfAnotherVersion() {
        for (Rapidhash version : Rapidhash.ALL) {
            SeedAndSecrets other = version == Rapidhash.V1 ? OWN : Messages.OWN_V1;
            String message = version == Rapidhash.V1 ? "SecretsV1 are needed, not Secrets"
                : "Secrets are needed, not SecretsV1";
            for (ThrowingRunnable call : List.<ThrowingRunnable>of(() -> version.hash(OF_TEXT, other),
                () -> version.hash(OF_TEXT, 0, 3, other), () -> version.hash(ByteBuffer.wrap(OF_TEXT), other),
                () -> version.hash(5, other), () -> version.hash("a", other), () -> version.hash('a', other))) {
                assertEquals(message, assertThrows(IllegalArgumentException.class, call).getMessage());
            }
        }
        Rapidhash version = Rapidhash.V3;
        assertThrows(IllegalArgumentException.class, () -> version.stream(Messages.OWN_V1));
    }

    @Test
    public void nullsAreNamed() {
        Rapidhash<Secrets> v3 = Rapidhash.V3;
        RapidhashTest.names("text", () -> v3.hash((String) null));
        RapidhashTest.names("text", () -> v3.hash((String) null, 1L));
        RapidhashTest.names("input", () -> v3.hash((InputStream) null));
        RapidhashTest.names("input", () -> v3.hash((InputStream) null, 1L));
        RapidhashTest.names("input", () -> v3.hash((InputStream) null, OWN));
        RapidhashTest.names("secrets", () -> v3.hash(InputStream.nullInputStream(), null));
        RapidhashTest.names("input", () -> v3.stream().update((InputStream) null));
        RapidhashTest.names("secrets", () -> v3.hash(5, null));
        RapidhashTest.names("secrets", () -> v3.hash("hello", null));
    }
}
