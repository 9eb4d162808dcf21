package example.yervound.rapidhash;

import static org.junit.Assert.assertEquals;
import static org.junit.Assert.assertThrows;

import java.io.IOException;
import java.math.BigDecimal;
import java.math.BigInteger;
import java.nio.ByteBuffer;
import java.time.DateTimeException;
import java.time.Instant;
import java.time.LocalDate;
import java.time.LocalDateTime;
import java.time.OffsetDateTime;
import java.time.ZoneId;
import java.time.ZoneOffset;
import java.time.temporal.ChronoUnit;
import java.util.AbstractList;
import java.util.ArrayList;
import java.util.Arrays;
import java.util.Calendar;
import java.util.Collections;
import java.util.ConcurrentModificationException;
import java.util.Date;
import java.util.List;
import java.util.Optional;
import java.util.Set;
import java.util.TreeMap;
import java.util.UUID;
import java.util.regex.Matcher;
import java.util.regex.Pattern;
import java.util.stream.Collectors;
import org.junit.Test;

/** Tests fields of Java's types by the values of the repository, and what is refused with which words. */
public class FieldsTest {
    private static final Pattern TOKEN = Pattern.compile("\"((?:[^\"\\\\]|\\\\u....)*)\"|[-\\w]+|\\[|]");

    private static void refused(String message, Object field) {
        IllegalArgumentException e =
            assertThrows(message, IllegalArgumentException.class, () -> RapidhashKey.hash("a", field));
        assertEquals(message, e.getMessage());
    }

    @Test
    public void values() throws IOException {
        TreeMap<String, Integer> counts = new TreeMap<>();
        for (String[] words : Messages.lines("tests/fields.tsv")) {
            String wanted = words[2].equals("refused")
                ? "refused" : Rapidhash.toHex(Rapidhash.V3.hash(Messages.unhex(words[2])));
            assertEquals(words[0] + " " + words[1], wanted, keysOf(words[0], words[1]));
            counts.merge(words[0], 1, Integer::sum);
        }
        assertEquals("{boolean=3, date=70, decimal=92, float=63, integer=64, list=54, time=69, uuid=57}",
            counts.toString());
    }

    /** Returns the keys of a value in all ways to hold it, which must be one, or that Java's parser refuses it. */
    private static String keysOf(String kind, String text) {
        try {
            return Arrays.stream(text.equals("null") ? new Object[1] : read(kind, text)).map(FieldsTest::keyOf)
                .distinct().collect(Collectors.joining(" "));
        } catch (IllegalArgumentException | DateTimeException refused) {
            return "refused";
        }
    }

    private static String keyOf(Object field) {
        try {
            return Rapidhash.toHex(RapidhashKey.hash(field));
        } catch (IllegalArgumentException refused) {
            return "refused";
        }
    }

    private static Object[] read(String kind, String text) {
        switch (kind) {
            case "boolean":
                return new Object[] {Boolean.valueOf(text)};
            case "integer":
                return new Object[] {new BigInteger(text)};
            case "date":
                return new Object[] {LocalDate.parse(text)};
            case "time":
                OffsetDateTime time = OffsetDateTime.parse(text);
                return new Object[] {time, time.toInstant(), time.toZonedDateTime(),
                    time.atZoneSameInstant(ZoneId.of("Asia/Kolkata"))};
            case "uuid":
                return new Object[] {UUID.fromString(text), Messages.unhex(text.replace("-", ""))};
            case "decimal":
                return new Object[] {new BigDecimal(text)};
            case "float":
                return new Object[] {
                    RapidhashKey.floatBits(Double.parseDouble(text.replace("inf", "Infinity").replace("nan", "NaN")))};
            case "list":
                List<?> list = listOf(text);
                return new Object[] {list, list.toArray(), Collections.unmodifiableList(list)};
            default:
                throw new AssertionError("no type " + kind);
        }
    }

    /** Returns a list of JSON, whose lists are in no third one. */
    private static List<?> listOf(String text) {
        List<List<Object>> open = new ArrayList<>(List.of(new ArrayList<>()));
        for (Matcher token = TOKEN.matcher(text); token.find();) {
            List<Object> last = open.get(open.size() - 1);
            String word = token.group();
            if (word.equals("[")) {
                open.add(new ArrayList<>());
            } else if (word.equals("]")) {
                open.remove(open.size() - 1);
                open.get(open.size() - 1).add(last);
            } else if (token.group(1) != null) {
                last.add(Pattern.compile("\\\\u(....)").matcher(token.group(1))
                    .replaceAll(found -> "" + (char) Integer.parseInt(found.group(1), 16)));
            } else {
                last.add(word.equals("null") ? null : word.matches("true|false") ? (Object) Boolean.valueOf(word)
                    : word.length() < 19 ? (Object) Long.valueOf(word) : new BigInteger(word));
            }
        }
        return (List<?>) open.get(0).get(0);
    }

    @Test
    public void lists() {
        Object[] items = {(byte) 7, -1L, BigInteger.valueOf(7)};
        for (Object list : new Object[] {List.of(7, -1, 7), new Integer[] {7, -1, 7}, new long[] {7, -1, 7},
            new int[] {7, -1, 7}, items}) {
            assertEquals(RapidhashKey.hash(3, 7, -1, 7, "b"), RapidhashKey.hash(list, "b"));
        }
        assertEquals(RapidhashKey.hash(7, -1, 7), RapidhashKey.hash(items));
        assertEquals(RapidhashKey.hash(0), RapidhashKey.hash((Object) new String[0]));
        UUID uuid = new UUID(0x0123456789abcdefL, -2);
        Object[] types = {uuid, LocalDate.EPOCH, Instant.EPOCH, new BigDecimal("-0.50"), new byte[200], true};
        byte[] digits = ByteBuffer.allocate(16).putLong(0x0123456789abcdefL).putLong(-2).array();
        assertEquals(RapidhashKey.hashWithSeed(7, 1, 12, digits, 0, 0, "-0.5", new byte[200], 1, digits, 0, 0, "-0.5",
            new byte[200], 1, null), RapidhashKey.hashWithSeed(7, true, join(types, types), null));
        refused("fields[1][2] must not be a list in a list", List.of(1, "b", new int[0]));
        refused("fields[1][0] must not be a list in a list", new Object[] {List.of(), "\ud800"});
        refused("fields[1][1] has half of a surrogate pair", List.of(uuid, "\ud800", List.of()));
        refused("fields[1] has half of a surrogate pair", "\udc00");
        assertThrows(ConcurrentModificationException.class, () -> RapidhashKey.hash(new AbstractList<Integer>() {
            private int size = 5;

            @Override
            public Integer get(int at) {
                return at;
            }

            @Override
            public int size() {
                return size--;
            }
        }));
    }

    private static List<Object> join(Object[] first, Object[] second) {
        List<Object> all = new ArrayList<>(Arrays.asList(first));
        all.addAll(Arrays.asList(second));
        return all;
    }

    @Test
    public void bounds() {
        long second = 9223372036854L;
        assertEquals(RapidhashKey.hash(Long.MAX_VALUE), RapidhashKey.hash(Instant.ofEpochSecond(second, 775807000)));
        assertEquals(RapidhashKey.hash(Long.MIN_VALUE),
            RapidhashKey.hash(Instant.ofEpochSecond(-second - 1, 224192000)));
        String infinity = "fields[1] has more than 64 bits of microseconds, as times that stand for infinity have";
        for (Object time : new Object[] {Instant.ofEpochSecond(second, 775808000), Instant.ofEpochSecond(second + 1),
            Instant.ofEpochSecond(-second - 1, 224191000), Instant.ofEpochSecond(-second - 2), Instant.MAX, Instant.MIN,
            Instant.ofEpochSecond(1L << 50), OffsetDateTime.MAX, OffsetDateTime.MIN,
            LocalDateTime.MAX.atZone(ZoneOffset.UTC), Instant.ofEpochSecond(-1L << 50)}) {
            refused(infinity, time);
        }
        for (LocalDate date : new LocalDate[] {LocalDate.MAX, LocalDate.MIN}) {
            refused("fields[1] is LocalDate.MAX or MIN, which stand for infinity", date);
        }
        Instant fine = Instant.parse("1969-12-31T23:59:59.999999999Z");
        refused("fields[1] has a part of a microsecond; pass truncatedTo(ChronoUnit.MICROS)", fine);
        assertEquals(RapidhashKey.hash(-1), RapidhashKey.hash(fine.truncatedTo(ChronoUnit.MICROS)));
        assertEquals(RapidhashKey.hash(0x7ff0L << 48), RapidhashKey.hash(RapidhashKey.floatBits(1.0f / 0)));
        assertEquals("number must not be NaN; pass null for nothing",
            assertThrows(IllegalArgumentException.class, () -> RapidhashKey.floatBits(Float.NaN)).getMessage());
        refused("fields[1] must be from -2^63 to 2^64 - 1", BigInteger.ONE.shiftLeft(64));
    }

    /** Tests that a number with many digits takes no time that grows faster than they do, and an exponent no memory. */
    @Test(timeout = 60_000)
    public void longDecimals() {
        String tooLong = "fields[1] has more than 150000 characters as a decimal number";
        for (String text : new String[] {"1E+2147483647", "-1E-2147483647", "1E+150000", "-1E+149999", "1E-149999",
            "-1E-149998", "1".repeat(149_998) + ".25"}) {
            refused(tooLong, new BigDecimal(text));
        }
        BigInteger great = BigInteger.ONE.shiftLeft(1 << 28);
        refused(tooLong, new BigDecimal(great));
        refused(tooLong, new BigDecimal(great.setBit(0), 80_807_124));
        String digits = "fields[1] has more than 300000 digits; pass stripTrailingZeros() if most are zeros";
        refused(digits, new BigDecimal(great, 80_807_124));
        refused(digits, BigDecimal.ONE.setScale(300_001));
        for (BigDecimal number : new BigDecimal[] {BigDecimal.TEN.pow(149_999), BigDecimal.ONE.movePointLeft(149_998),
            BigDecimal.ONE.movePointLeft(149_997).negate(), BigDecimal.valueOf(-25, 2).add(BigDecimal.TEN.pow(149_996)),
            BigDecimal.valueOf(2).pow(435_411), BigDecimal.ONE.movePointLeft(100_001)}) {
            assertEquals(RapidhashKey.hash(number.toPlainString()), RapidhashKey.hash(number));
        }
        BigDecimal zeros = BigDecimal.ONE.setScale(100_000);
        for (int count = 0; count < 10; count++) {
            assertEquals(RapidhashKey.hash("1"), RapidhashKey.hash(zeros));
        }
        assertEquals(RapidhashKey.hash("0"), RapidhashKey.hash(new BigDecimal("0E+2147483647")));
        assertEquals(RapidhashKey.hash("-1"), RapidhashKey.hash(BigDecimal.ONE.setScale(299_000).negate()));
    }

    @Test
    public void whatIsNoField() {
        Object[][] helped = {
            {"pass RapidhashKey.floatBits(number) or a BigDecimal", 1.5, 1.5f, Double.NaN},
            {"pass time.atZone(zone): a local time is no instant", LocalDateTime.MAX},
            {"pass date.toInstant(), or toLocalDate() of a java.sql.Date", new Date() {
                private static final long serialVersionUID = 1;
            }, new Date()},
            {"pass calendar.toInstant()", Calendar.getInstance()},
            {"pass optional.orElse(null)", Optional.empty(), Optional.of(1)},
            {"pass String.valueOf(letter)", 'a'},
            {"packages/java/README.md lists the types", Set.of(1), new char[1], new short[1], new double[1],
                new Object(), java.time.LocalTime.NOON, java.util.OptionalInt.empty(), new boolean[1]},
        };
        for (Object[] row : helped) {
            for (int at = 1; at < row.length; at++) {
                refused("fields[1] must not be a " + row[at].getClass().getTypeName() + "; " + row[0], row[at]);
                refused("fields[1][0] must not be a " + row[at].getClass().getTypeName() + "; " + row[0],
                    Arrays.asList(row[at]));
            }
        }
    }
}
