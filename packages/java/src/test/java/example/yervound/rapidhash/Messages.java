package example.yervound.rapidhash;

import static org.junit.Assume.assumeTrue;

import java.io.IOException;
import java.nio.ByteBuffer;
import java.nio.file.Files;
import java.nio.file.Path;
import java.util.Arrays;
import java.util.List;
import java.util.TreeMap;
import java.util.stream.Collectors;

/** The messages of the tests, and a message in each kind of buffer. */
final class Messages {
    static final Secrets OWN = Secrets.of(1, 2, 3, 5, 7, 11, 13, 17);
    static final SecretsV1 OWN_V1 = SecretsV1.of(1, 2, 3, 5);
    static final long[] SEEDS = {0, 1, 1L << 32, 1L << 63, -1};

    private Messages() {}

    /** Returns the lines below the head of a file in the repository, from this directory or one above it. */
    static List<String[]> lines(String file) throws IOException {
        Path top = Path.of("").toAbsolutePath();
        while (top != null && !Files.exists(top.resolve(file))) {
            top = top.getParent();
        }
        assumeTrue("the repository has " + file + ", and the package alone does not", top != null);
        return Files.lines(top.resolve(file)).filter(line -> !line.startsWith("#")).skip(1)
            .map(line -> line.split("\t")).collect(Collectors.toList());
    }

    /** Returns so many bytes, which count from 0 to 250 again and again. */
    static byte[] bytes(int length) {
        byte[] bytes = new byte[length];
        for (int at = 0; at < length; at++) {
            bytes[at] = (byte) (at % 251);
        }
        return bytes;
    }

    /** Returns the bytes with three others before and after them. */
    static byte[] padded(byte[] bytes) {
        byte[] room = new byte[bytes.length + 6];
        Arrays.fill(room, (byte) 0x5a);
        System.arraycopy(bytes, 0, room, 3, bytes.length);
        return room;
    }

    /** Returns buffers whose remaining bytes are those of the message: heap, slice, read-only and direct ones. */
    static List<ByteBuffer> buffers(byte[] bytes) {
        ByteBuffer heap = ByteBuffer.wrap(padded(bytes), 3, bytes.length);
        ByteBuffer direct = ByteBuffer.allocateDirect(bytes.length + 6).put(padded(bytes));
        direct.position(3).limit(3 + bytes.length);
        return List.of(heap, heap.slice(), heap.asReadOnlyBuffer(), direct, direct.slice(), direct.asReadOnlyBuffer());
    }

    /** Returns the bytes of hexadecimal digits. */
    static byte[] unhex(String digits) {
        byte[] bytes = new byte[digits.length() / 2];
        for (int at = 0; at < bytes.length; at++) {
            bytes[at] = (byte) Integer.parseInt(digits.substring(2 * at, 2 * at + 2), 16);
        }
        return bytes;
    }

    /** Returns the versions by their names in the files of vectors. */
    static TreeMap<String, Rapidhash<?>> versions() {
        TreeMap<String, Rapidhash<?>> versions = new TreeMap<>();
        for (Rapidhash<?> version : Rapidhash.ALL) {
            versions.put(version.toString().toLowerCase(java.util.Locale.ROOT), version);
        }
        return versions;
    }

    /** Returns the secrets that belong to the version. */
    @SuppressWarnings("unchecked")
    static <S extends SeedAndSecrets> S select(Rapidhash<S> version, SecretsV1 ofV1, Secrets others) {
        return (S) (version == Rapidhash.V1 ? ofV1 : others);
    }

    /** Returns secrets of the test's own. */
    static <S extends SeedAndSecrets> S own(Rapidhash<S> version) {
        return select(version, OWN_V1, OWN);
    }
}
