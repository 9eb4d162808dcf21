package example.yervound.rapidhash;

import java.util.Objects;

/**
 * The hash of a key of several fields, the same in every language: {@code RapidhashKey.hash("user", 4711, null)}.
 *
 * <p>A field is null (as SQL's NULL), or one of these:
 *
 * <ul>
 * <li>a Byte, Short, Integer or Long, a BigInteger from -2^63 to 2^64 - 1, or a Boolean, which is 0 or 1
 * <li>a CharSequence as UTF-8, a byte[], or the remaining bytes of a ByteBuffer
 * <li>a LocalDate, or an Instant, OffsetDateTime or ZonedDateTime with whole microseconds
 * <li>a UUID
 * <li>a BigDecimal with at most 150,000 characters. 1.50 and 1.5 are one number, and 1 is not the Integer 1
 * <li>a List, array of objects, long[] or int[] with fields that are no lists
 * </ul>
 *
 * <p>Different keys are hashed as different messages by {@link Rapidhash#V3}. A method throws IllegalArgumentException,
 * naming the field's place, for any other field, such as a Double or LocalDateTime, for dates and times that stand for
 * infinity, and for a text with half of a surrogate pair. The key of a single null is
 * {@code RapidhashKey.hash((Object) null)}, and that of a single array of objects {@code hash((Object) array)}: without
 * the cast, Java takes it for the array of fields.
 */
public final class RapidhashKey {
    private RapidhashKey() {}

    /** Returns the hash of a key with the default seed and secrets. */
    public static long hash(Object... fields) {
        return hashWithSecrets(Secrets.DEFAULT, fields);
    }

    /** Returns the hash of a key with the default secrets and a seed word. */
    public static long hashWithSeed(long word, Object... fields) {
        return hashWithSecrets(Secrets.ofSeed(word), fields);
    }

    /** Returns the hash of a key with a seed and secrets. */
    public static long hashWithSecrets(Secrets secrets, Object... fields) {
        KeyEncoding key = new KeyEncoding(Objects.requireNonNull(secrets, "secrets"));
        for (int at = 0; at < Objects.requireNonNull(fields, "fields").length; at++) {
            key.add(fields[at], at);
        }
        return key.hash();
    }

    /**
     * Returns the bits of a floating-point number as a field, those of 0.0 for -0.0. A key takes no Double or Float,
     * because programs differ in how they compute and write them. The bits of a float are those of the same double.
     * Throws IllegalArgumentException for NaN, which has many bits: pass null instead.
     */
    public static long floatBits(double number) {
        if (Double.isNaN(number)) {
            throw new IllegalArgumentException("number must not be NaN; pass null for nothing");
        }
        // Arithmetic would take a small number for 0, where a library that was linked with -ffast-math is loaded.
        long bits = Double.doubleToLongBits(number);
        return bits == Long.MIN_VALUE ? 0 : bits;
    }
}
