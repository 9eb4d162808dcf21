package example.yervound.rapidhash;

import java.util.Objects;
import java.util.stream.LongStream;

/**
 * What a hash decides: a shard or a bucket, or with others the fingerprint of a table. The results are the same in
 * every language: {@code RapidhashShards.shard(Rapidhash.V3.hash("hello"), 10)} is 1.
 *
 * <p>Hashes, shards and their counts are unsigned: above 2^63 - 1 they are negative values of a long. For servers that
 * are added one by one, use {@link #bucket}: a hash then moves only to a new one.
 */
public final class RapidhashShards {
    /** The largest count of buckets. */
    private static final long MOST = 0xffffffffL;

    private RapidhashShards() {}

    /**
     * Returns the shard of a hash, below the count: the integer part of hash * count / 2^64. Each shard has
     * 2^64 / count hashes or one more, which follow one another. Multiplying the count splits each shard. The hashes of
     * a shard share their highest bits: inside it, use the lowest bits.
     *
     * @throws IllegalArgumentException if the count is 0
     */
    public static long shard(long hash, long count) {
        if (count == 0) {
            throw new IllegalArgumentException("count must be at least 1, not 0");
        }
        return Product.high(hash, count);
    }

    /**
     * Returns the first hash of a shard, which has the hashes from it to before the first of the next shard.
     *
     * @throws IllegalArgumentException if the shard is not below the count
     */
    public static long firstHash(long shard, long count) {
        if (Long.compareUnsigned(shard, count) >= 0) {
            throw new IllegalArgumentException("shard must be below the count " + Long.toUnsignedString(count)
                + ", not " + Long.toUnsignedString(shard));
        }
        long rest = shard;
        long quotient = 0;
        // Divides shard * 2^64 bit by bit.
        for (int bit = 0; bit < 64; bit++) {
            boolean fits = rest < 0 || Long.compareUnsigned(2 * rest, count) >= 0;
            rest = 2 * rest - (fits ? count : 0);
            quotient = 2 * quotient + (fits ? 1 : 0);
        }
        return rest == 0 ? quotient : quotient + 1;
    }

    /**
     * Returns the bucket of a hash, below the count, by jump consistent hashing in integers: among more buckets a hash
     * keeps its bucket or goes to a new one. The time grows with the logarithm of the count: some 14 steps for a
     * million.
     *
     * @throws IllegalArgumentException if the count is not from 1 to 2^32 - 1
     */
    public static long bucket(long hash, long count) {
        if (count < 1 || count > MOST) {
            throw new IllegalArgumentException("count must be from 1 to " + MOST + ", not " + count);
        }
        long state = hash;
        long at = 0;
        long next = 0;
        while (next < count) {
            at = next;
            state = state * 2862933555777941757L + 1;
            next = ((at + 1) << 31) / ((state >>> 33) + 1);
        }
        return at;
    }

    /**
     * Returns the fingerprint of a table, from the hashes of its rows in any order: their sum modulo 2^64. The
     * fingerprints of parts add up to that of the whole. Tables with equally many rows and one fingerprint have the
     * same rows, but for a chance of one in 2^64. That does not hold against someone who chooses the rows, nor if rows
     * are repeated very often.
     */
    public static long fingerprint(long... hashes) {
        long sum = 0;
        for (long hash : Objects.requireNonNull(hashes, "hashes")) {
            sum += hash;
        }
        return sum;
    }

    /** Returns the fingerprint of a table, from the hashes of a stream, which it consumes. */
    public static long fingerprint(LongStream hashes) {
        return Objects.requireNonNull(hashes, "hashes").sum();
    }
}
