package example.yervound.rapidhash;

import static example.yervound.rapidhash.Messages.OWN;
import static org.junit.Assert.assertEquals;
import static org.junit.Assert.assertThrows;

import java.io.ByteArrayInputStream;
import java.io.IOException;
import java.nio.ByteBuffer;
import java.nio.channels.FileChannel;
import java.nio.file.Files;
import java.nio.file.Path;
import java.nio.file.StandardOpenOption;
import java.util.List;
import java.util.concurrent.FutureTask;
import java.util.zip.CheckedInputStream;
import org.junit.Test;

public class RapidhashStreamTest {
    static final List<Rapidhash<Secrets>> STREAMED = List.of(Rapidhash.V3, Rapidhash.V3_MICRO, Rapidhash.V3_NANO);

    /** Writes 300 bytes in two pieces, with each cut, from arrays and from each kind of buffer. */
    @Test
    public void everyCut() {
        byte[] message = Messages.bytes(300);
        for (Rapidhash<Secrets> version : STREAMED) {
            long known = version.hash(message, OWN);
            for (int cut = 0; cut <= message.length; cut++) {
                RapidhashStream stream = version.stream(OWN);
                stream.update(message, 0, cut);
                stream.update(message, cut, message.length - cut);
                assertEquals(version + " cut at " + cut, known, stream.getValue());
                for (ByteBuffer buffer : Messages.buffers(message)) {
                    int start = buffer.position();
                    stream.reset();
                    stream.update(buffer.duplicate().limit(start + cut));
                    stream.update(buffer.position(start + cut));
                    assertEquals(version + " cut at " + cut, known, stream.getValue());
                    assertEquals(0, buffer.remaining());
                }
            }
        }
    }

    private static AutoCloseable arena(String kind) throws ReflectiveOperationException {
        return (AutoCloseable) Class.forName("java.lang.foreign.Arena").getMethod(kind).invoke(null);
    }

    private static ByteBuffer within(AutoCloseable arena, long size) throws ReflectiveOperationException {
        Class<?> type = Class.forName("java.lang.foreign.Arena");
        Object segment = type.getMethod("allocate", long.class).invoke(arena, size);
        return (ByteBuffer) Class.forName("java.lang.foreign.MemorySegment").getMethod("asByteBuffer").invoke(segment);
    }

    /** Updates by a buffer whose memory is gone: that of a closed arena, which JDK 22 and later have. */
    @Test
    public void failedUpdates() throws Exception {
        if (Runtime.version().feature() < 22) {
            return;
        }
        AutoCloseable arena = arena("ofConfined");
        ByteBuffer gone = within(arena, 300);
        arena.close();
        byte[] message = Messages.bytes(700);
        for (Rapidhash<Secrets> version : STREAMED) {
            for (int before = 0; before < 400; before++) {
                RapidhashStream stream = version.stream(OWN);
                stream.update(message, 0, before);
                assertThrows(IllegalStateException.class, () -> stream.update(gone));
                assertEquals(version.hash(message, 0, before, OWN), stream.getValue());
                stream.update(message, before, 300);
                assertEquals(version + " after " + before, version.hash(message, 0, before + 300, OWN),
                    stream.getValue());
            }
        }
    }

    /** Updates by a buffer whose memory goes meanwhile, because another thread closes the arena. */
    @Test
    public void updatesThatFailHalfway() throws Exception {
        if (Runtime.version().feature() < 22) {
            return;
        }
        byte[] message = Messages.bytes(150);
        for (Rapidhash<Secrets> version : STREAMED) {
            AutoCloseable arena = arena("ofShared");
            ByteBuffer large = within(arena, 8_000_000);
            RapidhashStream stream = version.stream(OWN);
            new Thread(new FutureTask<>(() -> {
                Thread.sleep(20);
                arena.close();
                return null;
            })).start();
            assertThrows(IllegalStateException.class, () -> {
                for (;;) {
                    stream.reset();
                    stream.update(message);
                    stream.update(large.rewind());
                }
            });
            Thread.interrupted(); // The JVM interrupts the thread whose access fails.
            assertEquals(version.toString(), version.hash(message, OWN), stream.getValue());
        }
    }

    @Test
    public void readsWhatChecksumsRead() throws IOException {
        CheckedInputStream in = new CheckedInputStream(new ByteArrayInputStream(Messages.bytes(1000)),
            Rapidhash.V3.stream());
        in.readAllBytes();
        assertEquals(Rapidhash.V3.hash(Messages.bytes(1000)), in.getChecksum().getValue());
    }

    @Test
    public void versionsWithoutStreams() {
        for (Rapidhash<?> version : Rapidhash.ALL) {
            if (!STREAMED.contains(version)) {
                hasNone(version);
            }
        }
    }

    private static <S extends SeedAndSecrets> void hasNone(Rapidhash<S> version) {
        Exception refused = assertThrows(UnsupportedOperationException.class, version::stream);
        assertEquals(version + " has no stream", refused.getMessage());
        assertThrows(UnsupportedOperationException.class, () -> version.stream(1));
        assertThrows(UnsupportedOperationException.class, () -> version.stream(Messages.own(version)));
    }

    /**
     * Compares the hashes of the longest buffer, a file without blocks. The known ones are those of the C header with
     * gcc, by rapidhash_v3(zeros, INT_MAX) and so on in the order of the versions.
     */
    @Test
    public void longestBuffer() throws IOException {
        long[] known = {
            0x129f5d6af9054732L, 0xf089650b239214f1L, 0xf089650b239214f1L, 0xf089650b239214f1L,
            0x9fe6f80d0f340458L, 0x506ff0c3da32b34dL, 0x3416f0e231584072L, 0xf49912f7374e55a5L
        };
        Path file = Files.createTempFile("zeros", null);
        try (FileChannel channel = FileChannel.open(file, StandardOpenOption.READ, StandardOpenOption.WRITE)) {
            channel.write(ByteBuffer.allocate(1), Integer.MAX_VALUE - 1L);
            ByteBuffer zeros = channel.map(FileChannel.MapMode.READ_ONLY, 0, Integer.MAX_VALUE);
            for (Rapidhash<?> version : Rapidhash.ALL) {
                assertEquals(version.toString(), known[Rapidhash.ALL.indexOf(version)], version.hash(zeros));
            }
            for (Rapidhash<Secrets> version : STREAMED) {
                RapidhashStream stream = version.stream();
                stream.update(zeros.rewind());
                assertEquals(version.toString(), known[Rapidhash.ALL.indexOf(version)], stream.getValue());
            }
            // More rows than 24 bits can count, if the heap has the room.
            byte[] array = new byte[(int) Math.min(850_000_000, Runtime.getRuntime().maxMemory() / 2)];
            for (Rapidhash<?> version : Rapidhash.ALL) {
                assertEquals(version.toString(), version.hash(zeros.rewind().limit(array.length)), version.hash(array));
            }
        } finally {
            Files.delete(file);
        }
    }
}
