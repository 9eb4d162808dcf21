import com.google.common.hash.Hashing;
import example.yervound.rapidhash.Rapidhash;
import java.util.zip.CRC32C;
import net.jpountz.xxhash.XXHash64;
import net.jpountz.xxhash.XXHashFactory;

/** Times the hash of a library, {@code rapidhash}, {@code xxh64}, {@code farmhash} or {@code crc32c}, at several
 * lengths, each at eight places. The sum of the hashes is stored, so that no call is left out. */
public class Hashes {
    private static final int[] LENGTHS = {0, 3, 4, 8, 11, 16, 17, 32, 48, 64, 100, 112, 200, 300, 1024, 65536, 1 << 20};
    private static final byte[] BYTES = new byte[(1 << 20) + 8];
    private static final CRC32C CRC = new CRC32C();
    private static final XXHash64 XXH64 = XXHashFactory.fastestJavaInstance().hash64();
    private static volatile long stored;

    private static long hash(String library, int at, int length) {
        switch (library) {
            case "rapidhash":
                return Rapidhash.V3.hash(BYTES, at, length);
            case "xxh64":
                return XXH64.hash(BYTES, at, length, 0);
            case "farmhash":
                return Hashing.farmHashFingerprint64().hashBytes(BYTES, at, length).asLong();
            default:
                CRC.reset();
                CRC.update(BYTES, at, length);
                return CRC.getValue();
        }
    }

    private static long sum(String library, int length, int calls) {
        long sum = 0;
        for (int i = 0; i < calls; i++) {
            sum += hash(library, i & 7, length);
        }
        return sum;
    }

    public static void main(String[] words) {
        new java.util.Random(7).nextBytes(BYTES);
        for (int length : LENGTHS) {
            int calls = Math.max(20, 10_000_000 / (length + 60));
            long least = Long.MAX_VALUE;
            for (int repeat = 0; repeat < 20; repeat++) {
                long start = System.nanoTime();
                stored = sum(words[0], length, calls);
                least = Math.min(least, System.nanoTime() - start);
            }
            System.out.printf("V3\t%d\t%.3f%n", length, (double) least / calls);
        }
    }
}
