package example.yervound.rapidhash;

import static org.junit.Assert.assertEquals;
import static org.junit.Assert.assertThrows;

import java.util.stream.LongStream;
import org.junit.Test;
import org.junit.function.ThrowingRunnable;

/** Tests what shards, buckets and fingerprints refuse. */
public class RapidhashShardsTest {
    private static void refuses(String why, ThrowingRunnable call) {
        assertEquals(why, assertThrows(IllegalArgumentException.class, call).getMessage());
    }

    @Test
    public void whatIsNoCount() {
        refuses("count must be at least 1, not 0", () -> RapidhashShards.shard(-1, 0));
        refuses("shard must be below the count 0, not 0", () -> RapidhashShards.firstHash(0, 0));
        refuses("shard must be below the count 10, not 10", () -> RapidhashShards.firstHash(10, 10));
        refuses("shard must be below the count 10, not 18446744073709551615", () -> RapidhashShards.firstHash(-1, 10));
        for (long count : new long[] {0, -1, 4294967296L}) {
            refuses("count must be from 1 to 4294967295, not " + count, () -> RapidhashShards.bucket(-1, count));
        }
        RapidhashTest.names("hashes", () -> RapidhashShards.fingerprint((long[]) null));
        RapidhashTest.names("hashes", () -> RapidhashShards.fingerprint((LongStream) null));
    }

    /** Makes the calls of the page. The known values are those of tests/model.py. */
    @Test
    public void callsOfThePage() {
        long hash = Rapidhash.V3.hash("hello");
        assertEquals(1, RapidhashShards.shard(hash, 10));
        assertEquals(1844674407370955162L, RapidhashShards.firstHash(1, 10));
        assertEquals(4, RapidhashShards.bucket(hash, 10));
        assertEquals(hash + 5, RapidhashShards.fingerprint(hash, 5));
    }
}
