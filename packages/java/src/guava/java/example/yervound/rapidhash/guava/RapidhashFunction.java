package example.yervound.rapidhash.guava;

import com.google.common.hash.Funnel;
import com.google.common.hash.HashCode;
import com.google.common.hash.HashFunction;
import com.google.common.hash.Hasher;
import example.yervound.rapidhash.Rapidhash;
import example.yervound.rapidhash.RapidhashStream;
import example.yervound.rapidhash.Secrets;
import java.nio.ByteBuffer;
import java.nio.ByteOrder;
import java.nio.charset.Charset;

/**
 * A version with streams as a function of Guava: {@code new RapidhashFunction(Rapidhash.V3, Secrets.make(42))}. Hashes
 * the bytes that Guava specifies for a number, a text or an object. {@link HashCode#asLong()} returns the hash. The
 * function is thread-safe, but one thread at a time may use a {@link Hasher}.
 */
public final class RapidhashFunction implements HashFunction {
    private final Rapidhash<Secrets> version;
    private final Secrets secrets;

    /**
     * Creates the function of a version with a seed and secrets. {@code Secrets.ofSeed(0)} returns the default ones.
     *
     * @throws UnsupportedOperationException if the version has no streams
     */
    public RapidhashFunction(Rapidhash<Secrets> version, Secrets secrets) {
        version.stream(secrets);
        this.version = version;
        this.secrets = secrets;
    }

    @Override public int bits() { return 64; }
    @Override public Hasher newHasher() { return new Sink(); }
    @Override public Hasher newHasher(int expectedInputSize) { return newHasher(); }
    @Override public HashCode hashInt(int input) { return newHasher().putInt(input).hash(); }
    @Override public HashCode hashLong(long input) { return HashCode.fromLong(version.hash(input, secrets)); }
    @Override public HashCode hashBytes(byte[] input) { return HashCode.fromLong(version.hash(input, secrets)); }
    @Override public HashCode hashBytes(byte[] input, int offset, int length) {
        return HashCode.fromLong(version.hash(input, offset, length, secrets));
    }
    @Override public HashCode hashBytes(ByteBuffer input) { return newHasher().putBytes(input).hash(); }
    @Override public HashCode hashUnencodedChars(CharSequence text) {
        return newHasher().putUnencodedChars(text).hash();
    }
    @Override public HashCode hashString(CharSequence text, Charset set) {
        return newHasher().putString(text, set).hash();
    }
    @Override public <T> HashCode hashObject(T instance, Funnel<? super T> funnel) {
        return newHasher().putObject(instance, funnel).hash();
    }
    /** Debian's Guava still has this name of hashUnencodedChars, and its Hasher one like it. */
    @Deprecated public HashCode hashString(CharSequence input) { return hashUnencodedChars(input); }

    @SuppressWarnings("deprecation")
    private final class Sink implements Hasher {
        private final RapidhashStream stream = version.stream(secrets);
        private final ByteBuffer number = ByteBuffer.allocate(8).order(ByteOrder.LITTLE_ENDIAN);

        /** Appends the lowest bytes of a number. */
        private Hasher put(long value, int count) {
            return putBytes(number.putLong(0, value).array(), 0, count);
        }

        @Override public Hasher putByte(byte b) { return put(b, 1); }
        @Override public Hasher putShort(short s) { return put(s, 2); }
        @Override public Hasher putInt(int i) { return put(i, 4); }
        @Override public Hasher putLong(long l) { return put(l, 8); }
        @Override public Hasher putFloat(float f) { return put(Float.floatToRawIntBits(f), 4); }
        @Override public Hasher putDouble(double d) { return put(Double.doubleToRawLongBits(d), 8); }
        @Override public Hasher putBoolean(boolean b) { return put(b ? 1 : 0, 1); }
        @Override public Hasher putChar(char c) { return put(c, 2); }
        @Override public Hasher putBytes(byte[] bytes) { return putBytes(bytes, 0, bytes.length); }
        @Override public Hasher putBytes(byte[] bytes, int offset, int length) {
            stream.update(bytes, offset, length);
            return this;
        }
        @Override public Hasher putBytes(ByteBuffer bytes) {
            stream.update(bytes);
            return this;
        }
        @Override public Hasher putUnencodedChars(CharSequence text) {
            text.chars().forEach(c -> put(c, 2));
            return this;
        }
        @Override public Hasher putString(CharSequence text, Charset charset) {
            return putBytes(text.toString().getBytes(charset));
        }
        public Hasher putString(CharSequence text) { return putUnencodedChars(text); }
        @Override public <T> Hasher putObject(T instance, Funnel<? super T> funnel) {
            funnel.funnel(instance, this);
            return this;
        }
        @Override public HashCode hash() { return HashCode.fromLong(stream.getValue()); }
    }
}
