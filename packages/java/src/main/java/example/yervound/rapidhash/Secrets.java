package example.yervound.rapidhash;

/** A seed and seven secrets for every version except V1, which needs {@link SecretsV1}. Instances are immutable. */
public final class Secrets extends SeedAndSecrets {
    static final Secrets DEFAULT = ofSeed(0);

    private Secrets(long seed, long[] words) {
        super(seed, 7, words);
    }

    /**
     * Returns a seed and seven secrets of your own.
     *
     * @throws NullPointerException if {@code secrets} is null
     * @throws IllegalArgumentException if there are not seven secrets
     */
    public static Secrets of(long seed, long... secrets) {
        return new Secrets(seed, secrets);
    }

    /**
     * Makes a seed and secrets from a number. Make them once and reuse them. If others choose the messages, use a
     * random number: the default secrets are public, so a seed word does not stop an attacker.
     */
    public static Secrets make(long number) {
        long seed = premix(number, CONSTANTS[0]);
        return new Secrets(seed, made(seed, 7));
    }

    /** Returns the default secrets with a seed word, as {@code hash(bytes, word)} uses them. */
    public static Secrets ofSeed(long word) {
        return new Secrets(seedOf(word, false), CONSTANTS);
    }

    @Override
    public long[] secrets() {
        return new long[] {s0, s1, s2, s3, s4, s5, s6};
    }
}
