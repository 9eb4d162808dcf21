package example.yervound.rapidhash;

import java.io.IOException;
import java.io.InputStream;
import java.nio.ByteBuffer;
import java.nio.ByteOrder;
import java.nio.charset.StandardCharsets;
import java.util.Arrays;
import java.util.Objects;
import java.util.zip.Checksum;

/**
 * Hashes a message in pieces, as {@code Rapidhash.V3.stream()} starts it. The value is that of
 * {@link Rapidhash#hash(byte[])} for the whole message, however it is cut. One thread at a time may use a stream.
 */
public final class RapidhashStream implements Checksum {
    /** The folded bytes that are kept, because the last words of the message may begin in them. */
    private static final int FOLDED = 16;
    /** The size of a saved stream. docs/BINDINGS.md has the format. */
    private static final int SAVED = 208;
    /** The name and the version of the format. */
    private static final byte[] NAME = "rapidV3\2".getBytes(StandardCharsets.US_ASCII);

    private final SeedAndSecrets secrets;
    private final int count;
    private final Lanes lanes;
    private final byte[] kept;
    private int end;
    private boolean isFolded;

    RapidhashStream(int count, SeedAndSecrets secrets) {
        this.count = count;
        this.secrets = secrets;
        lanes = new Lanes(secrets.seed);
        kept = new byte[FOLDED + 16 * count];
        end = FOLDED;
    }

    /** Appends the lowest 8 bits of a number. */
    @Override
    public void update(int b) {
        if (end < kept.length) {
            kept[end++] = (byte) b;
        } else {
            append(new byte[] {(byte) b}, 0, 1);
        }
    }

    /** Appends all bytes. */
    @Override
    public void update(byte[] bytes) {
        append(bytes, 0, Objects.requireNonNull(bytes, "bytes").length);
    }

    /**
     * Appends a range of bytes.
     *
     * @throws IndexOutOfBoundsException if the range is not within the array
     */
    @Override
    public void update(byte[] bytes, int offset, int length) {
        Objects.checkFromIndexSize(offset, length, Objects.requireNonNull(bytes, "bytes").length);
        append(bytes, offset, length);
    }

    /** Appends a buffer's remaining bytes and moves its position to its limit, as {@link Checksum} specifies. */
    @Override
    public void update(ByteBuffer buffer) {
        int at = Objects.requireNonNull(buffer, "buffer").position();
        if (buffer.hasArray()) {
            append(buffer.array(), buffer.arrayOffset() + at, buffer.remaining());
        } else if (buffer.hasRemaining()) {
            long[] words = lanes.words();
            byte[] bytes = kept.clone();
            try {
                append(buffer, at, buffer.remaining());
            } catch (RuntimeException | Error e) { // such as an arena that is closed, even by another thread
                lanes.set(words);
                System.arraycopy(bytes, 0, kept, 0, bytes.length);
                throw e;
            }
        }
        buffer.position(buffer.limit());
    }

    /**
     * Appends all bytes that an input still has, and does not close it.
     *
     * @throws IOException if a read fails. The bytes before it are appended
     * @throws IndexOutOfBoundsException if a read returns more bytes than fit. Those before it are appended
     */
    public void update(InputStream input) throws IOException {
        byte[] room = new byte[8192];
        Objects.requireNonNull(input, "input");
        for (int n = input.read(room); n >= 0; n = input.read(room)) {
            update(room, 0, n);
        }
    }

    /** Returns the hash of the message so far. More pieces may follow. */
    @Override
    public long getValue() {
        if (!isFolded) {
            return Hashes.v3(kept, FOLDED, end - FOLDED, count, secrets.seed, secrets);
        }
        return Hashes.v3Close(kept, FOLDED, end, lanes.joined(), secrets);
    }

    /** Empties the message but keeps the secrets and the version. */
    @Override
    public void reset() {
        lanes.start(secrets.seed);
        end = FOLDED;
        isFolded = false;
    }

    /** Returns an independent stream with the same version, secrets and message so far. */
    public RapidhashStream copy() {
        return new RapidhashStream(count, secrets).become(this);
    }

    /**
     * Returns the saved stream: 208 bytes, the same on every machine and in every language. They contain bytes of the
     * message, but no secrets.
     */
    public byte[] save() {
        ByteBuffer saved = ByteBuffer.allocate(SAVED).order(ByteOrder.LITTLE_ENDIAN);
        int start = isFolded ? 0 : FOLDED;
        saved.put(NAME).put((byte) count).put((byte) 1).put((byte) (isFolded ? 1 : 0)).put((byte) (end - FOLDED));
        saved.position(16);
        for (long lane : lanes.words()) {
            saved.putLong(lane ^ secrets.seed);
        }
        saved.position(72 + start).put(kept, start, end - start);
        byte[] counted = new byte[240];
        for (int at = 0; at < counted.length; at++) {
            counted[at] = (byte) at;
        }
        // The CRC finds damage, whatever the message is; the hash of the bytes 0 to 239 finds other secrets.
        long mark = ProtectedHash.v3(counted, 0, counted.length, secrets.seed, secrets);
        return saved.putLong(200, crc64(saved.array(), 200) ^ mark).array();
    }

    /** Returns CRC-64/XZ of the first bytes. */
    private static long crc64(byte[] bytes, int size) {
        long crc = -1;
        for (int at = 0; at < size; at++) {
            crc ^= bytes[at] & 255;
            for (int bit = 0; bit < 8; bit++) {
                crc = (crc & 1) != 0 ? crc >>> 1 ^ 0xc96c5795d7870f42L : crc >>> 1;
            }
        }
        return ~crc;
    }

    /**
     * Replaces the message by that of a saved stream of the same version, seed and secrets.
     *
     * @throws IllegalArgumentException if the bytes are changed, or another stream saved them. It names the reason, and
     *     this stream does not change
     */
    public void restore(byte[] saved) {
        ByteBuffer fields = ByteBuffer.wrap(Objects.requireNonNull(saved, "saved")).order(ByteOrder.LITTLE_ENDIAN);
        check(saved.length == SAVED, "a saved stream has 208 bytes, not " + saved.length);
        check(Arrays.equals(saved, 0, NAME.length, NAME, 0, NAME.length),
            "saved is not a saved stream, or one of another version of the format");
        check(saved[8] == count && saved[9] == 1, "the stream was saved with " + Byte.toUnsignedInt(saved[8])
            + " lanes and options " + Byte.toUnsignedInt(saved[9]) + ", not " + count + " and 1");
        RapidhashStream restored = new RapidhashStream(count, secrets);
        check(restored.load(fields) && Arrays.equals(restored.save(), saved),
            "the saved stream was changed, or has another seed or other secrets");
        become(restored);
    }

    private static void check(boolean holds, String reason) {
        if (!holds) {
            throw new IllegalArgumentException(reason);
        }
    }

    /** Sets the state of a started stream. Returns whether the number of bytes that are not folded is in its range. */
    private boolean load(ByteBuffer saved) {
        int size = Byte.toUnsignedInt(saved.get(11));
        long[] words = lanes.words();
        isFolded = saved.get(10) == 1;
        end = FOLDED + size;
        for (int lane = 0; isFolded && lane < count; lane++) {
            words[lane] ^= saved.getLong(16 + 8 * lane);
        }
        lanes.set(words);
        saved.position(72).get(kept);
        return size <= 16 * count && (size > 0 || !isFolded);
    }

    /** Copies the state of another stream of the same version and secrets. Returns this stream. */
    private RapidhashStream become(RapidhashStream other) {
        lanes.set(other.lanes.words());
        System.arraycopy(other.kept, 0, kept, 0, kept.length);
        end = other.end;
        isFolded = other.isFolded;
        return this;
    }

    private void append(Object data, int at, int n) {
        if (n > kept.length - end) {
            fold(data, at, n);
        } else {
            copy(data, at, end, n);
            end += n;
        }
    }

    /** Appends a piece that exceeds the room left. Keeps the last 1 to 16 * count bytes, and the 16 before them. */
    private void fold(Object data, int at, int n) {
        int room = kept.length - end;
        copy(data, at, end, room);
        Hashes.fold(lanes, kept, FOLDED, kept.length, 0, count, secrets);
        int rest = data instanceof byte[]
            ? Hashes.fold(lanes, (byte[]) data, at + room, at + n, 1, count, secrets)
            : BufferHashes.fold(lanes, (ByteBuffer) data, at + room, at + n, 1, count, secrets);
        if (rest - at >= FOLDED) {
            copy(data, rest - FOLDED, 0, FOLDED);
        } else {
            System.arraycopy(kept, kept.length - FOLDED, kept, 0, FOLDED);
        }
        copy(data, rest, FOLDED, at + n - rest);
        end = FOLDED + at + n - rest;
        isFolded = true;
    }

    /** Copies bytes of an array or a buffer into the kept ones. */
    private void copy(Object data, int at, int to, int n) {
        if (data instanceof byte[]) {
            System.arraycopy(data, at, kept, to, n);
        } else {
            ((ByteBuffer) data).duplicate().position(at).get(kept, to, n);
        }
    }
}
