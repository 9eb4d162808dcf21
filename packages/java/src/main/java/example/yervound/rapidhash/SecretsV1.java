package example.yervound.rapidhash;

import java.util.Arrays;

/** A seed and three secrets for V1. Every other version needs {@link Secrets}. Instances are immutable. */
public final class SecretsV1 extends SeedAndSecrets {
    static final SecretsV1 DEFAULT = ofSeed(0xbdd89aa982704029L);

    private SecretsV1(long seed, long[] words) {
        super(seed, 3, words);
    }

    /**
     * Returns a seed and three secrets of your own.
     *
     * @throws NullPointerException if {@code secrets} is null
     * @throws IllegalArgumentException if there are not three secrets
     */
    public static SecretsV1 of(long seed, long... secrets) {
        return new SecretsV1(seed, secrets);
    }

    /** Makes a seed and secrets from a number, as {@link Secrets#make} does. */
    public static SecretsV1 make(long number) {
        long seed = premix(number, CONSTANTS[0]);
        return new SecretsV1(seed, made(seed, 3));
    }

    /** Returns the default secrets with a seed word, as {@code V1.hash(bytes, word)} uses them. */
    public static SecretsV1 ofSeed(long word) {
        return new SecretsV1(seedOf(word, true), Arrays.copyOf(CONSTANTS, 3));
    }

    @Override
    public long[] secrets() {
        return new long[] {s0, s1, s2};
    }
}
