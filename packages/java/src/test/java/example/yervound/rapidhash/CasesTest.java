package example.yervound.rapidhash;

import static example.yervound.rapidhash.Messages.select;
import static org.junit.Assert.assertEquals;
import static org.junit.Assert.assertThrows;
import static org.junit.Assert.assertTrue;

import java.io.IOException;
import java.nio.ByteBuffer;
import java.util.Arrays;
import java.util.HashSet;
import java.util.LinkedHashSet;
import java.util.Map;
import java.util.Set;
import java.util.stream.Collectors;
import java.util.stream.LongStream;
import org.junit.Test;

/** Replays the cases that every language has. Their README.md has the format. */
public class CasesTest {
    private static final Map<String, Rapidhash<?>> VERSIONS = Messages.versions();

    private final Set<String> found = new HashSet<>();

    static byte[] bytesOf(String text) {
        if (text.startsWith("ramp:")) {
            return Messages.bytes(Integer.parseInt(text.substring(5)));
        }
        return Messages.unhex(text.replace("-", ""));
    }

    /** Returns the numbers of a text, between commas or spaces. */
    private static long[] numbers(String text) {
        return Arrays.stream(text.split("[ ,]")).filter(word -> !word.isEmpty() && !word.equals("-"))
            .mapToLong(Long::parseUnsignedLong).toArray();
    }

    @Test
    public void cases() throws IOException {
        int count = 0;
        for (String[] words : Messages.lines("crates/test_replay/data/cases.tsv")) {
            String line = String.join(" ", words);
            assertEquals(line.substring(0, Math.min(120, line.length())), words[4], replay(words));
            count++;
        }
        assertTrue(count + " cases", count > 5000);
        assertEquals(VERSIONS.keySet(), found);
    }

    private String replay(String[] words) {
        boolean isZeros = words[3].startsWith("zeros:");
        switch (words[0]) {
            case "hash":
                found.add(words[1]);
                Rapidhash<?> version = VERSIONS.get(words[1]);
                return isZeros ? ofZeros(version, words) : hash(version, words[2], bytesOf(words[3]));
            case "secrets":
                SeedAndSecrets made = words[1].equals("v1")
                    ? secretsOf(Rapidhash.V1, words[2]) : secretsOf(Rapidhash.V3, words[2]);
                return same(made.seed()) + " " + Arrays.stream(made.secrets()).mapToObj(Long::toUnsignedString)
                    .collect(Collectors.joining(" "));
            case "key":
                return isZeros ? words[4] : key(words[2], words[3]);
            case "stream":
                return new Player(streamed(words[1]), words[2]).play(words[3]);
            case "fingerprint":
                long[] hashes = numbers(words[3]);
                return same(RapidhashShards.fingerprint(hashes), RapidhashShards.fingerprint(LongStream.of(hashes)));
            default:
                return decide(words[0], numbers(words[3]));
        }
    }

    /** Returns the value of all numbers, or all of them. */
    private static String same(long... numbers) {
        Set<String> texts = new LinkedHashSet<>();
        LongStream.of(numbers).forEach(number -> texts.add(Rapidhash.toDecimal(number)));
        return String.join(" ", texts);
    }

    private static String decide(String kind, long[] of) {
        try {
            switch (kind) {
                case "shard":
                    return same(RapidhashShards.shard(of[0], of[1]));
                case "first_hash":
                    return same(RapidhashShards.firstHash(of[0], of[1]));
                case "bucket":
                    return same(RapidhashShards.bucket(of[0], of[1]));
                default:
                    throw new AssertionError("no kind " + kind);
            }
        } catch (IllegalArgumentException refused) {
            return "refused";
        }
    }

    @SuppressWarnings("unchecked")
    private static Rapidhash<Secrets> streamed(String name) {
        assertTrue(name, RapidhashStreamTest.STREAMED.contains(VERSIONS.get(name)));
        return (Rapidhash<Secrets>) VERSIONS.get(name);
    }

    /** Returns the hash of so many bytes of 0, which no array can have, by the versions with streams. */
    private static String ofZeros(Rapidhash<?> version, String[] words) {
        if (!RapidhashStreamTest.STREAMED.contains(version)) {
            return words[4];
        }
        RapidhashStream stream = version.stream();
        byte[] zeros = new byte[1 << 20];
        for (long left = Long.parseLong(words[3].substring(6)); left > 0; left -= zeros.length) {
            stream.update(zeros, 0, (int) Math.min(left, zeros.length));
        }
        return same(stream.getValue());
    }

    /** Returns the seed word of a rule, if it has one. */
    private static Long seedOf(Rapidhash<?> version, String rule) {
        return rule.startsWith("word:") ? (Long) Long.parseUnsignedLong(rule.substring(5))
            : rule.equals("default") ? (Long) (version == Rapidhash.V1 ? 0xbdd89aa982704029L : 0) : null;
    }

    private static <S extends SeedAndSecrets> S secretsOf(Rapidhash<S> version, String rule) {
        Long seed = seedOf(version, rule);
        if (seed != null) {
            return select(version, SecretsV1.ofSeed(seed), Secrets.ofSeed(seed));
        }
        long[] words = numbers(rule.substring(rule.indexOf(':') + 1));
        if (rule.startsWith("own:")) {
            return select(version, SecretsV1.of(words[0], Arrays.copyOfRange(words, 1, 4)),
                Secrets.of(words[0], Arrays.copyOfRange(words, 1, 8)));
        }
        assertTrue(rule, rule.startsWith("make:"));
        return select(version, SecretsV1.make(words[0]), Secrets.make(words[0]));
    }

    /** Returns the hash of a message by each call, from each kind of memory, and in pieces of 1, 2, 3 bytes. */
    private static <S extends SeedAndSecrets> String hash(Rapidhash<S> version, String rule, byte[] message) {
        S secrets = secretsOf(version, rule);
        Long seed = seedOf(version, rule);
        byte[] padded = Messages.padded(message);
        LongStream.Builder hashes = LongStream.builder();
        hashes.add(version.hash(message, secrets)).add(version.hash(padded, 3, message.length, secrets));
        for (ByteBuffer buffer : Messages.buffers(message)) {
            hashes.add(version.hash(buffer, secrets));
            if (rule.equals("default")) {
                hashes.add(version.hash(buffer));
            } else if (seed != null) {
                hashes.add(version.hash(buffer, seed));
            }
        }
        if (seed != null) {
            hashes.add(version.hash(message, seed)).add(version.hash(padded, 3, message.length, seed));
        }
        if (rule.equals("default")) {
            hashes.add(version.hash(message)).add(version.hash(padded, 3, message.length));
        }
        if (RapidhashStreamTest.STREAMED.contains(version)) {
            hashes.add(inPieces(version.stream(secrets), message));
            hashes.add(inPieces(seed == null ? version.stream(secrets) : version.stream((long) seed), message));
        }
        long[] all = hashes.build().toArray();
        assertEquals(String.format("%016x", all[0]), Rapidhash.toHex(all[0]));
        return same(all);
    }

    private static long inPieces(RapidhashStream stream, byte[] message) {
        for (int at = 0, size = 1; at < message.length; at += size++) {
            stream.update(message, at, Math.min(size, message.length - at));
        }
        return stream.getValue();
    }

    private static String key(String rule, String argument) {
        Object[] fields = Arrays.stream(argument.split(" ")).filter(text -> !text.equals("()"))
            .map(text -> text.equals("-") ? null : text.startsWith("x") ? bytesOf(text.substring(1))
                : (Object) Long.parseLong(text)).toArray();
        long hash = RapidhashKey.hashWithSecrets(secretsOf(Rapidhash.V3, rule), fields);
        Long seed = seedOf(Rapidhash.V3, rule);
        return same(hash, seed == null ? hash : RapidhashKey.hashWithSeed(seed, fields),
            rule.equals("default") ? RapidhashKey.hash(fields) : hash);
    }

    /** Plays the operations of a stream. The bytes that were saved last are those that others change. */
    private static final class Player {
        private final Rapidhash<Secrets> version;
        private final Secrets secrets;
        private final StringBuilder values = new StringBuilder();
        private RapidhashStream stream;
        private byte[] saved;

        Player(Rapidhash<Secrets> version, String rule) {
            this.version = version;
            secrets = secretsOf(version, rule);
            stream = version.stream(secrets);
        }

        String play(String operations) {
            for (String operation : operations.split(" ")) {
                play(operation.charAt(0), operation.substring(1));
            }
            return values.toString().trim();
        }

        private void play(char kind, String text) {
            switch (kind) {
                case 'w': stream.update(bytesOf(text)); break;
                case 'r': stream.reset(); break;
                case 'f': values.append(' ').append(same(stream.getValue(), stream.copy().getValue())); break;
                case 's': save(); break;
                case '=': stream.restore(bytesOf(text)); break;
                case '!': refuse(bytesOf(text)); break;
                case '~': flip(); break;
                case '^':
                case '+': change(kind, text); break;
                default: throw new AssertionError("no operation " + kind + text);
            }
        }

        private void save() {
            saved = stream.save();
            values.append(' ');
            for (byte one : saved) {
                values.append(String.format("%02x", one));
            }
            stream = version.stream(secrets);
            stream.update(new byte[5]);
            stream.restore(saved);
        }

        private void refuse(byte[] bytes) {
            long before = stream.getValue();
            assertThrows(IllegalArgumentException.class, () -> stream.restore(bytes));
            assertEquals(before, stream.getValue());
        }

        private void flip() {
            for (int bit = 0; bit < 8 * saved.length; bit++) {
                byte[] changed = saved.clone();
                changed[bit / 8] ^= (byte) (1 << bit % 8);
                refuse(changed);
            }
        }

        /** Changes the saved bytes from a place on, and the last ones. */
        private void change(char kind, String text) {
            String[] parts = text.split(":");
            byte[] others = bytesOf(parts[1]);
            byte[] changed = saved.clone();
            System.arraycopy(others, 0, changed, Integer.parseInt(parts[0]), others.length);
            System.arraycopy(bytesOf(parts[2]), 0, changed, 200, 8);
            if (kind == '^') {
                refuse(changed);
            } else {
                stream.restore(changed);
            }
        }
    }
}
