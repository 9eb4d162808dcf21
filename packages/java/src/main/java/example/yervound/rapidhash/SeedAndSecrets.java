package example.yervound.rapidhash;

import static example.yervound.rapidhash.Primitives.mix;

import java.util.Arrays;
import java.util.Objects;

/** A seed and secrets: {@link Secrets}, or {@link SecretsV1} for V1. Instances are immutable. */
public abstract class SeedAndSecrets {
    static final long[] CONSTANTS = {
        0x2d358dccaa6c78a5L, 0x8bb84b93962eacc9L, 0x4b33a62ed433d4a3L, 0x4d5a2da51de1aa47L, 0xa0761d6478bd642fL,
        0xe7037ed1a0b428dbL, 0x90ed1765281c388cL
    };

    final long seed;
    /** The secrets. Those that V1 does not have are 0. */
    final long s0, s1, s2, s3, s4, s5, s6;

    /** Keeps a seed and so many secrets. */
    SeedAndSecrets(long seed, int count, long[] words) {
        if (Objects.requireNonNull(words, "secrets").length != count) {
            throw new IllegalArgumentException(count + " secrets are needed, not " + words.length);
        }
        long[] all = Arrays.copyOf(words, 7);
        this.seed = seed;
        s0 = all[0];
        s1 = all[1];
        s2 = all[2];
        s3 = all[3];
        s4 = all[4];
        s5 = all[5];
        s6 = all[6];
    }

    /** Returns the seed of a seed word. V1 mixes the word with the first secret, the other versions with the third. */
    static long seedOf(long word, boolean isV1) {
        return word ^ mix(word ^ CONSTANTS[isV1 ? 0 : 2], CONSTANTS[1]);
    }

    /** Returns the first secrets that are made from a made seed. */
    static long[] made(long seed, int count) {
        long[] words = new long[count];
        for (int place = 0; place < count; place++) {
            words[place] = premix(place == 0 ? seed : words[place - 1], CONSTANTS[place]);
        }
        return words;
    }

    /** Returns a mix of a word with a bit set in its upper 16 bits, in bits 24 to 39, and in its lower 16 bits. */
    static long premix(long word, long constant) {
        long mixed = word ^ mix(word ^ CONSTANTS[2], constant);
        mixed |= (mixed & 0xffffL << 48) == 0 ? 1L << 63 : 0;
        mixed |= (mixed & 0xffffL << 24) == 0 ? 1L << 31 : 0;
        return mixed | ((mixed & 0xffffL) == 0 ? 1 : 0);
    }

    /** Returns other secrets of this type. The compiler does not check those of calls by a raw type. */
    <S extends SeedAndSecrets> S checked(S others) {
        if (Objects.requireNonNull(others, "secrets").getClass() != getClass()) {
            throw new IllegalArgumentException(
                getClass().getSimpleName() + " are needed, not " + others.getClass().getSimpleName());
        }
        return others;
    }

    /** Returns the seed. */
    public long seed() {
        return seed;
    }

    /** Returns a copy of the secrets. */
    public abstract long[] secrets();

    @Override
    public boolean equals(Object other) {
        return other instanceof SeedAndSecrets && seed == ((SeedAndSecrets) other).seed
            && Arrays.equals(secrets(), ((SeedAndSecrets) other).secrets());
    }

    @Override
    public int hashCode() {
        return 31 * Long.hashCode(seed) + Arrays.hashCode(secrets());
    }

    /** Returns a text without the seed and the secrets, which logs must not show. */
    @Override
    public String toString() {
        return getClass().getSimpleName() + "[hidden]";
    }
}
