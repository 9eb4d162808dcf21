package example.yervound.rapidhash;

import java.io.BufferedOutputStream;
import java.io.DataOutputStream;
import java.io.EOFException;
import java.io.IOException;
import java.io.InputStream;
import java.nio.ByteBuffer;
import java.nio.ByteOrder;
import java.util.Arrays;
import java.util.List;

/**
 * Computes hashes with random functions instead of the loads and the product, for the comparison with the definition.
 *
 * <p>Reads 32,768 bytes that hold every message, and then records of 20 little-endian words: form, options, key, seed,
 * seven secrets, offset, length, streamed, four cuts, and two unused words. Writes the hash for each record, as a
 * little-endian word. The form is the place of a version in {@link Rapidhash}. Option 2 is protected V3. The key is
 * that of the random functions. If streamed is 1, the message is written in five pieces, which end at the cuts. With an
 * argument, the messages are in a direct buffer.
 */
public final class Formulas {
    private static final int ROOM = 32768;
    private static final ByteBuffer HEAP = ByteBuffer.allocate(64 + ROOM);
    private static final ByteBuffer DIRECT = ByteBuffer.allocateDirect(64 + ROOM);

    private Formulas() {}

    /** Runs the program. */
    public static void main(String[] arguments) throws IOException {
        byte[] room = System.in.readNBytes(ROOM);
        if (room.length != ROOM) {
            throw new EOFException("formulas: the messages have " + room.length + " bytes");
        }
        ByteBuffer direct = ByteBuffer.allocateDirect(ROOM).put(room);
        try (DataOutputStream out = new DataOutputStream(new BufferedOutputStream(System.out))) {
            for (long[] record = next(System.in); record != null; record = next(System.in)) {
                Primitives.key = record[2];
                out.writeLong(Long.reverseBytes(hash(record, arguments.length == 0 ? ByteBuffer.wrap(room) : direct)));
            }
        }
    }

    /** Returns the next record, or null at the end of the input. */
    private static long[] next(InputStream in) throws IOException {
        byte[] bytes = in.readNBytes(160);
        if (bytes.length % 160 != 0) {
            throw new EOFException("formulas: a record has " + bytes.length + " bytes");
        }
        long[] words = new long[20];
        ByteBuffer.wrap(bytes).order(ByteOrder.LITTLE_ENDIAN).asLongBuffer().get(words, 0, bytes.length / 8);
        return bytes.length == 0 ? null : words;
    }

    @SuppressWarnings("unchecked") // Only the first version has secrets of another type.
    private static long hash(long[] record, ByteBuffer room) {
        boolean isProtected = (record[1] & 2) != 0;
        if (record[0] < 0 || record[0] >= Rapidhash.ALL.size() - 1 || isProtected && record[0] != 4) {
            throw new IllegalArgumentException("formulas: no form " + record[0] + " with options " + record[1]);
        }
        return record[0] == 0
            ? hash(Rapidhash.V1, SecretsV1.of(record[3], Arrays.copyOfRange(record, 4, 7)), record, room)
            : hash(isProtected ? Rapidhash.V3_PROTECTED : (Rapidhash<Secrets>) Rapidhash.ALL.get((int) record[0]),
                Secrets.of(record[3], Arrays.copyOfRange(record, 4, 11)), record, room);
    }

    private static <S extends SeedAndSecrets> long hash(Rapidhash<S> form, S secrets, long[] record, ByteBuffer room) {
        int offset = (int) record[11];
        int end = offset + (int) record[12];
        if (record[13] == 0) {
            return form.hash(room.duplicate().position(offset).limit(end), secrets);
        }
        RapidhashStream stream = form.stream(secrets);
        int from = offset;
        for (int cut = 14; cut < 19; cut++) {
            int to = cut == 18 ? end : offset + (int) record[cut];
            stream.update(apart(room, from, to));
            from = to;
        }
        return stream.getValue();
    }

    /** Returns a copy of a piece, before which are no bytes of its message: a stream must not read them there. */
    private static ByteBuffer apart(ByteBuffer room, int from, int to) {
        ByteBuffer copy = room.isDirect() ? DIRECT : HEAP;
        copy.clear().position(64).put(room.duplicate().position(from).limit(to));
        return copy.flip().position(64);
    }
}
