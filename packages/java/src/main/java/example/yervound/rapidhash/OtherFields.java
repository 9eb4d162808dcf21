package example.yervound.rapidhash;

import java.math.BigDecimal;
import java.math.BigInteger;
import java.nio.charset.StandardCharsets;
import java.time.Instant;
import java.time.LocalDate;
import java.time.LocalDateTime;
import java.time.OffsetDateTime;
import java.time.ZonedDateTime;
import java.util.Arrays;
import java.util.Calendar;
import java.util.Date;
import java.util.List;
import java.util.Optional;
import java.util.UUID;

/** The fields of other types than integers, texts and bytes, by the rules of docs/ALGORITHM.md. */
final class OtherFields {
    /** The most characters of a decimal number. */
    private static final int MOST = 150_000;
    private static final String TOO_LONG = " has more than " + MOST + " characters as a decimal number";

    private OtherFields() {}

    static void add(KeyEncoding key, Object field, int at) {
        if (field instanceof Boolean) {
            key.add((Boolean) field ? 1L : 0L);
        } else if (field instanceof LocalDate) {
            key.add(daysOf((LocalDate) field, key, at));
        } else if (field instanceof Instant) {
            Instant time = (Instant) field;
            key.add(microsecondsOf(time.getEpochSecond(), time.getNano(), key, at));
        } else if (field instanceof OffsetDateTime) {
            OffsetDateTime time = (OffsetDateTime) field;
            key.add(microsecondsOf(time.toEpochSecond(), time.getNano(), key, at));
        } else if (field instanceof ZonedDateTime) {
            ZonedDateTime time = (ZonedDateTime) field;
            key.add(microsecondsOf(time.toEpochSecond(), time.getNano(), key, at));
        } else if (field instanceof UUID) {
            key.add(((UUID) field).getMostSignificantBits(), ((UUID) field).getLeastSignificantBits());
        } else if (field instanceof BigDecimal) {
            key.add(textOf((BigDecimal) field, key, at).getBytes(StandardCharsets.ISO_8859_1));
        } else if (field instanceof BigInteger) {
            key.add(integerOf((BigInteger) field, key, at));
        } else if (field instanceof List) {
            key.add((List<?>) field, at);
        } else if (field instanceof Object[]) {
            key.add(Arrays.asList((Object[]) field), at);
        } else if (field instanceof long[]) {
            key.startList(((long[]) field).length, at);
            for (long item : (long[]) field) {
                key.add(item);
            }
        } else if (field instanceof int[]) {
            key.startList(((int[]) field).length, at);
            for (int item : (int[]) field) {
                key.add((long) item);
            }
        } else {
            throw key.refusal(at, " must not be a " + field.getClass().getTypeName() + "; " + helpFor(field));
        }
    }

    /** Returns what to pass instead of a field. */
    private static String helpFor(Object field) {
        return field instanceof Double || field instanceof Float
            ? "pass RapidhashKey.floatBits(number) or a BigDecimal"
            : field instanceof LocalDateTime ? "pass time.atZone(zone): a local time is no instant"
            : field instanceof Date ? "pass date.toInstant(), or toLocalDate() of a java.sql.Date"
            : field instanceof Calendar ? "pass calendar.toInstant()"
            : field instanceof Optional ? "pass optional.orElse(null)"
            : field instanceof Character ? "pass String.valueOf(letter)"
            : "packages/java/README.md lists the types";
    }

    private static long daysOf(LocalDate date, KeyEncoding key, int at) {
        if (date.equals(LocalDate.MAX) || date.equals(LocalDate.MIN)) {
            throw key.refusal(at, " is LocalDate.MAX or MIN, which stand for infinity");
        }
        return date.toEpochDay();
    }

    private static long microsecondsOf(long seconds, int nanoseconds, KeyEncoding key, int at) {
        long microseconds = seconds * 1_000_000 + nanoseconds / 1000;
        // One step beyond 64 bits has the other sign, and one second more is at most one step.
        if (Math.abs(seconds) > Long.MAX_VALUE / 1_000_000 + 1 || (microseconds < 0) != (seconds < 0)) {
            throw key.refusal(at, " has more than 64 bits of microseconds, as times that stand for infinity have");
        }
        if (nanoseconds % 1000 != 0) {
            throw key.refusal(at, " has a part of a microsecond; pass truncatedTo(ChronoUnit.MICROS)");
        }
        return microseconds;
    }

    private static long integerOf(BigInteger number, KeyEncoding key, int at) {
        if (number.bitLength() > (number.signum() < 0 ? 63 : 64)) {
            throw key.refusal(at, " must be from -2^63 to 2^64 - 1");
        }
        return number.longValue();
    }

    /**
     * Returns the text of a number. None that is much too long is computed, so that an exponent costs no memory. Nor is
     * that of a number with twice as many digits, which the text could only have as zeros behind the point.
     */
    private static String textOf(BigDecimal number, KeyEncoding key, int at) {
        BigInteger unscaled = number.unscaledValue().abs();
        if (unscaled.signum() == 0) {
            return "0";
        }
        long scale = number.scale();
        double leastDigits = (unscaled.bitLength() - 1) * 0.30102999;
        if (leastDigits - scale > MOST || scale - unscaled.getLowestSetBit() > MOST) {
            throw key.refusal(at, TOO_LONG);
        }
        if (leastDigits > 2 * MOST) {
            throw key.refusal(at, " has more than 300000 digits; pass stripTrailingZeros() if most are zeros");
        }
        String digits = unscaled.toString();
        int end = digits.length();
        while (digits.charAt(end - 1) == '0') {
            end--;
        }
        long places = scale - (digits.length() - end);
        long whole = end - places;
        String sign = number.signum() < 0 ? "-" : "";
        if (sign.length() + Math.max(whole, 1) + (places > 0 ? 1 + places : 0) > MOST) {
            throw key.refusal(at, TOO_LONG);
        }
        return sign + (places <= 0 ? digits.substring(0, end) + "0".repeat((int) -places)
            : whole <= 0 ? "0." + "0".repeat((int) -whole) + digits.substring(0, end)
            : digits.substring(0, (int) whole) + "." + digits.substring((int) whole, end));
    }
}
