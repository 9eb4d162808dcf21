package example.yervound.rapidhash;

import java.io.IOException;
import java.io.InputStream;
import java.nio.ByteBuffer;
import java.nio.charset.StandardCharsets;
import java.util.List;
import java.util.Objects;

/**
 * The versions of rapidhash, each a function of bytes to 64 bits: {@code Rapidhash.V3.hash(bytes)}.
 *
 * <p>A hash is the same on every run and on every machine, and equals that of the Rust crate rapidhash 4.5.1. The
 * hashes are not cryptographic: someone who chooses the bytes can make two messages collide. All methods are
 * thread-safe.
 *
 * <p>A method throws NullPointerException, naming the argument, if an argument is null, and IllegalArgumentException
 * for secrets of another type, which calls by a raw type can pass. A hash of a buffer covers the bytes from its
 * position to its limit and changes neither, as {@link ByteBuffer#hashCode()} does. V3, micro and nano have streams: to
 * start one of another version throws UnsupportedOperationException.
 *
 * @param <S> the secrets of the version: {@link SecretsV1} or {@link Secrets}
 */
public final class Rapidhash<S extends SeedAndSecrets> {
    private enum Family { V1, V2, V3, PROTECTED }

    /** V1. */
    public static final Rapidhash<SecretsV1> V1 = new Rapidhash<>("V1", Family.V1, 0, SecretsV1.DEFAULT);
    /** V2.0. */
    public static final Rapidhash<Secrets> V2_0 = new Rapidhash<>("V2_0", Family.V2, 0, Secrets.DEFAULT);
    /** V2.1. */
    public static final Rapidhash<Secrets> V2_1 = new Rapidhash<>("V2_1", Family.V2, 1, Secrets.DEFAULT);
    /** V2.2. */
    public static final Rapidhash<Secrets> V2_2 = new Rapidhash<>("V2_2", Family.V2, 2, Secrets.DEFAULT);
    /** V3, the recommended version. */
    public static final Rapidhash<Secrets> V3 = new Rapidhash<>("V3", Family.V3, 7, Secrets.DEFAULT);
    /** V3 micro, with five lanes. */
    public static final Rapidhash<Secrets> V3_MICRO = new Rapidhash<>("V3_MICRO", Family.V3, 5, Secrets.DEFAULT);
    /** V3 nano, with three lanes. */
    public static final Rapidhash<Secrets> V3_NANO = new Rapidhash<>("V3_NANO", Family.V3, 3, Secrets.DEFAULT);
    /** V3 with protected products: a factor of 0 does not erase the other. */
    public static final Rapidhash<Secrets> V3_PROTECTED =
        new Rapidhash<>("V3_PROTECTED", Family.PROTECTED, 7, Secrets.DEFAULT);

    /** All versions, from V1 to V3_PROTECTED. */
    public static final List<Rapidhash<?>> ALL = List.of(V1, V2_0, V2_1, V2_2, V3, V3_MICRO, V3_NANO, V3_PROTECTED);

    private final String name;
    private final Family family;
    /** The minor version of V2, or the number of V3's lanes. */
    private final int form;
    private final S defaults;

    private Rapidhash(String name, Family family, int form, S defaults) {
        this.name = name;
        this.family = family;
        this.form = form;
        this.defaults = defaults;
    }

    private long of(byte[] data, int at, int n, long seed, SeedAndSecrets s) {
        return family == Family.V3 ? Hashes.v3(data, at, n, form, seed, s)
            : family == Family.V2 ? Hashes.v2(data, at, n, form, seed, s)
            : family == Family.V1 ? Hashes.v1(data, at, n, seed, s)
            : ProtectedHash.v3(data, at, n, seed, s);
    }

    private long of(ByteBuffer data, int at, int n, long seed, SeedAndSecrets s) {
        return family == Family.V3 ? BufferHashes.v3(data, at, n, form, seed, s)
            : family == Family.V2 ? BufferHashes.v2(data, at, n, form, seed, s)
            : family == Family.V1 ? BufferHashes.v1(data, at, n, seed, s)
            : BufferProtectedHash.v3(data, at, n, seed, s);
    }

    /** Returns the hash of all bytes with the default seed and secrets. */
    public long hash(byte[] bytes) {
        Objects.requireNonNull(bytes, "bytes");
        return of(bytes, 0, bytes.length, defaults.seed, defaults);
    }

    /** Returns the hash of all bytes with the default secrets and a seed word. */
    public long hash(byte[] bytes, long seed) {
        Objects.requireNonNull(bytes, "bytes");
        return of(bytes, 0, bytes.length, SeedAndSecrets.seedOf(seed, this == V1), defaults);
    }

    /** Returns the hash of all bytes with a seed and secrets. */
    public long hash(byte[] bytes, S secrets) {
        Objects.requireNonNull(bytes, "bytes");
        return of(bytes, 0, bytes.length, defaults.checked(secrets).seed, secrets);
    }

    /**
     * Returns the hash of a range of bytes with the default seed and secrets.
     *
     * @throws IndexOutOfBoundsException if the range is not within the array
     */
    public long hash(byte[] bytes, int offset, int length) {
        Objects.checkFromIndexSize(offset, length, Objects.requireNonNull(bytes, "bytes").length);
        return of(bytes, offset, length, defaults.seed, defaults);
    }

    /**
     * Returns the hash of a range of bytes with the default secrets and a seed word.
     *
     * @throws IndexOutOfBoundsException if the range is not within the array
     */
    public long hash(byte[] bytes, int offset, int length, long seed) {
        Objects.checkFromIndexSize(offset, length, Objects.requireNonNull(bytes, "bytes").length);
        return of(bytes, offset, length, SeedAndSecrets.seedOf(seed, this == V1), defaults);
    }

    /**
     * Returns the hash of a range of bytes with a seed and secrets.
     *
     * @throws IndexOutOfBoundsException if the range is not within the array
     */
    public long hash(byte[] bytes, int offset, int length, S secrets) {
        Objects.checkFromIndexSize(offset, length, Objects.requireNonNull(bytes, "bytes").length);
        return of(bytes, offset, length, defaults.checked(secrets).seed, secrets);
    }

    /** Returns the hash of a buffer's remaining bytes with the default seed and secrets. */
    public long hash(ByteBuffer buffer) {
        return ofBuffer(buffer, defaults.seed, defaults);
    }

    /** Returns the hash of a buffer's remaining bytes with the default secrets and a seed word. */
    public long hash(ByteBuffer buffer, long seed) {
        return ofBuffer(buffer, SeedAndSecrets.seedOf(seed, this == V1), defaults);
    }

    /** Returns the hash of a buffer's remaining bytes with a seed and secrets. */
    public long hash(ByteBuffer buffer, S secrets) {
        return ofBuffer(buffer, defaults.checked(secrets).seed, secrets);
    }

    /** Returns the hash of a number's 8 bytes, least significant first, with the default seed and secrets. */
    public long hash(long number) {
        return hash(Primitives.bytes(number));
    }

    /** Returns the hash of a number's 8 bytes, least significant first, with the default secrets and a seed word. */
    public long hash(long number, long seed) {
        return hash(Primitives.bytes(number), seed);
    }

    /** Returns the hash of a number's 8 bytes, least significant first, with a seed and secrets. */
    public long hash(long number, S secrets) {
        return hash(Primitives.bytes(number), secrets);
    }

    /**
     * Returns the hash of a text's UTF-8, which it copies, with the default seed and secrets. Half of a surrogate pair
     * is encoded as '?', as {@link String#getBytes(java.nio.charset.Charset)} does.
     */
    public long hash(CharSequence text) {
        return hash(encode(text));
    }

    /** Returns the hash of a text's UTF-8 with the default secrets and a seed word. */
    public long hash(CharSequence text, long seed) {
        return hash(encode(text), seed);
    }

    /** Returns the hash of a text's UTF-8 with a seed and secrets. */
    public long hash(CharSequence text, S secrets) {
        return hash(encode(text), secrets);
    }

    /**
     * Returns the hash of a letter as a text, with the default seed and secrets. Without this method, Java would take
     * the letter for a number.
     */
    public long hash(char letter) {
        return hash(String.valueOf(letter));
    }

    /** Returns the hash of a letter as a text with the default secrets and a seed word. */
    public long hash(char letter, long seed) {
        return hash(String.valueOf(letter), seed);
    }

    /** Returns the hash of a letter as a text with a seed and secrets. */
    public long hash(char letter, S secrets) {
        return hash(String.valueOf(letter), secrets);
    }

    /**
     * Returns the hash of the bytes that remain in an input, with the default seed and secrets. Does not close it.
     *
     * @throws UnsupportedOperationException if this version has no streams
     * @throws IOException if a read fails
     */
    public long hash(InputStream input) throws IOException {
        return read(input, stream());
    }

    /** Returns the hash of the bytes that remain in an input with the default secrets and a seed word. */
    public long hash(InputStream input, long seed) throws IOException {
        return read(input, stream(seed));
    }

    /** Returns the hash of the bytes that remain in an input with a seed and secrets. */
    public long hash(InputStream input, S secrets) throws IOException {
        return read(input, stream(secrets));
    }

    /** Starts a stream with the default seed and secrets. */
    public RapidhashStream stream() {
        return new RapidhashStream(lanes(), defaults);
    }

    /** Starts a stream with the default secrets and a seed word. */
    public RapidhashStream stream(long seed) {
        return new RapidhashStream(lanes(), Secrets.ofSeed(seed));
    }

    /** Starts a stream with a seed and secrets. */
    public RapidhashStream stream(S secrets) {
        return new RapidhashStream(lanes(), defaults.checked(secrets));
    }

    /** Returns the text of a hash as an unsigned decimal number. */
    public static String toDecimal(long hash) {
        return Long.toUnsignedString(hash);
    }

    /** Returns the text of a hash as 16 hexadecimal digits, most significant first. */
    public static String toHex(long hash) {
        String digits = Long.toHexString(hash);
        return "0".repeat(16 - digits.length()) + digits;
    }

    /** Returns the name of the version's constant. */
    @Override
    public String toString() {
        return name;
    }

    private int lanes() {
        if (family != Family.V3) {
            throw new UnsupportedOperationException(this + " has no stream");
        }
        return form;
    }

    private long ofBuffer(ByteBuffer buffer, long seed, SeedAndSecrets secrets) {
        int at = Objects.requireNonNull(buffer, "buffer").position();
        return buffer.hasArray() ? of(buffer.array(), buffer.arrayOffset() + at, buffer.remaining(), seed, secrets)
            : of(buffer, at, buffer.remaining(), seed, secrets);
    }

    private static long read(InputStream input, RapidhashStream stream) throws IOException {
        stream.update(input);
        return stream.getValue();
    }

    private static byte[] encode(CharSequence text) {
        return Objects.requireNonNull(text, "text").toString().getBytes(StandardCharsets.UTF_8);
    }
}
