package example.yervound.rapidhash;

import java.nio.ByteBuffer;
import java.nio.charset.StandardCharsets;
import java.util.ConcurrentModificationException;
import java.util.List;

/** The encoding of a key. That of a long one is in the stream, but for its last bytes. */
final class KeyEncoding {
    private static final byte NOTHING = 0;
    private static final byte INTEGER = 1;
    private static final byte BYTES = 2;

    private final byte[] bytes = new byte[128];
    private final Secrets secrets;
    private RapidhashStream stream;
    private int end;
    /** The place of the list whose items are added, or -1. */
    private int list = -1;

    KeyEncoding(Secrets secrets) {
        this.secrets = secrets;
    }

    /** Adds a field, or an item of a list, by its place. */
    void add(Object field, int at) {
        if (field == null) {
            makeRoom(1);
            bytes[end++] = NOTHING;
        } else if (field instanceof Long || field instanceof Integer || field instanceof Short
            || field instanceof Byte) {
            add(((Number) field).longValue());
        } else if (field instanceof CharSequence) {
            add(encode(field.toString(), at));
        } else if (field instanceof byte[]) {
            add((byte[]) field);
        } else if (field instanceof ByteBuffer) {
            add(((ByteBuffer) field).duplicate());
        } else {
            OtherFields.add(this, field, at);
        }
    }

    void add(long number) {
        add(INTEGER, number);
    }

    /** Adds a tag and a number, least significant byte first. */
    private void add(byte tag, long number) {
        makeRoom(9);
        bytes[end++] = tag;
        for (int shift = 0; shift < 64; shift += 8) {
            bytes[end++] = (byte) (number >> shift);
        }
    }

    void add(byte[] field) {
        add(BYTES, field.length);
        if (makeRoom(field.length)) {
            System.arraycopy(field, 0, bytes, end, field.length);
            end += field.length;
        } else {
            stream.update(field);
        }
    }

    private void add(ByteBuffer field) {
        int size = field.remaining();
        add(BYTES, size);
        if (makeRoom(size)) {
            field.get(bytes, end, size);
            end += size;
        } else {
            stream.update(field);
        }
    }

    /** Adds 16 bytes, most significant first. */
    void add(long high, long low) {
        add(BYTES, 16);
        makeRoom(16);
        for (int shift = 56; shift >= 0; shift -= 8) {
            bytes[end + 8] = (byte) (low >> shift);
            bytes[end++] = (byte) (high >> shift);
        }
        end += 8;
    }

    /** Adds the number of items of a list. */
    void startList(int size, int at) {
        if (list >= 0) {
            throw refusal(at, " must not be a list in a list");
        }
        add((long) size);
    }

    /** Adds the number of items of a list, and then each. */
    void add(List<?> items, int at) {
        int size = items.size();
        int count = 0;
        startList(size, at);
        list = at;
        for (Object item : items) {
            add(item, count++);
        }
        list = -1;
        if (count != size) {
            throw new ConcurrentModificationException("fields[" + at + "] has changed");
        }
    }

    /** Returns the exception for the field or item at a place. */
    IllegalArgumentException refusal(int at, String reason) {
        return new IllegalArgumentException("fields[" + (list < 0 ? "" : list + "][") + at + "]" + reason);
    }

    /** Returns the UTF-8 of a text, of which String would replace half of a surrogate pair. */
    private byte[] encode(String text, int at) {
        for (int place = 0; place < text.length(); place++) {
            char letter = text.charAt(place);
            if (Character.isSurrogate(letter)
                && (++place == text.length() || !Character.isSurrogatePair(letter, text.charAt(place)))) {
                throw refusal(at, " has half of a surrogate pair");
            }
        }
        return text.getBytes(StandardCharsets.UTF_8);
    }

    /** Makes room for a number of bytes, by a flush if there is less. Returns whether they fit. */
    private boolean makeRoom(int count) {
        if (count > bytes.length - end) {
            flush();
        }
        return count <= bytes.length;
    }

    private void flush() {
        stream = stream == null ? Rapidhash.V3.stream(secrets) : stream;
        stream.update(bytes, 0, end);
        end = 0;
    }

    long hash() {
        if (stream == null) {
            return Rapidhash.V3.hash(bytes, 0, end, secrets);
        }
        flush();
        return stream.getValue();
    }
}
