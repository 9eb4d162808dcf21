package example.yervound.rapidhash;

/** Words that fold pairs of a message's words, each its own pairs one after another, by {@link Hashes}. */
final class Lanes {
    long l0, l1, l2, l3, l4, l5, l6;

    Lanes(long seed) {
        start(seed);
    }

    /** Sets all lanes to the seed. */
    void start(long seed) {
        l0 = l1 = l2 = l3 = l4 = l5 = l6 = seed;
    }

    /** Returns the lanes. */
    long[] words() {
        return new long[] {l0, l1, l2, l3, l4, l5, l6};
    }

    /** Sets the lanes. */
    void set(long[] words) {
        l0 = words[0];
        l1 = words[1];
        l2 = words[2];
        l3 = words[3];
        l4 = words[4];
        l5 = words[5];
        l6 = words[6];
    }

    /** Returns the XOR of all lanes. Lanes that have folded nothing cancel out, because their number is even. */
    long joined() {
        return l0 ^ l1 ^ l2 ^ l3 ^ l4 ^ l5 ^ l6;
    }
}
