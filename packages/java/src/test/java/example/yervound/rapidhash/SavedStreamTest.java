package example.yervound.rapidhash;

import static example.yervound.rapidhash.Messages.OWN;
import static org.junit.Assert.assertEquals;
import static org.junit.Assert.assertThrows;

import java.util.Arrays;
import org.junit.Test;

/** Tests why saved streams are refused, and copies. The file of cases has the bytes that are. */
public class SavedStreamTest {
    private static final byte[] OTHER = Messages.bytes(300);
    private static final String CHANGED = "the saved stream was changed, or has another seed or other secrets";
    private static final String FORMAT = "saved is not a saved stream, or one of another version of the format";

    /** Checks that a stream refuses bytes for a reason, and keeps its message. */
    private static void refuse(RapidhashStream stream, byte[] saved, String reason) {
        long before = stream.getValue();
        IllegalArgumentException e = assertThrows(IllegalArgumentException.class, () -> stream.restore(saved));
        assertEquals(reason, e.getMessage());
        assertEquals(before, stream.getValue());
    }

    @Test
    public void reasons() {
        RapidhashStream stream = Rapidhash.V3.stream(OWN);
        stream.update(OTHER);
        byte[] saved = stream.save();
        for (int at : new int[] {0, 7, 10, 199, 207}) {
            saved[at] ^= 1;
            refuse(stream, saved, at < 8 ? FORMAT : CHANGED);
            saved[at] ^= 1;
        }
        refuse(Rapidhash.V3.stream(7), saved, CHANGED);
        refuse(Rapidhash.V3.stream(Secrets.make(7)), saved, CHANGED);
    }

    @Test
    public void otherBytes() {
        RapidhashStream stream = Rapidhash.V3_MICRO.stream(OWN);
        stream.update(OTHER);
        byte[] saved = stream.save();
        refuse(stream, new byte[0], "a saved stream has 208 bytes, not 0");
        refuse(stream, Arrays.copyOf(saved, 209), "a saved stream has 208 bytes, not 209");
        refuse(stream, new byte[208], FORMAT);
        refuse(Rapidhash.V3.stream(OWN), saved, "the stream was saved with 5 lanes and options 1, not 7 and 1");
        saved[9] = 3;
        refuse(stream, saved, "the stream was saved with 5 lanes and options 3, not 5 and 1");
        saved[8] = (byte) 200;
        saved[9] = (byte) 255;
        refuse(stream, saved, "the stream was saved with 200 lanes and options 255, not 5 and 1");
        assertEquals("saved", assertThrows(NullPointerException.class, () -> stream.restore(null)).getMessage());
    }

    @Test
    public void copies() {
        for (Rapidhash<Secrets> version : RapidhashStreamTest.STREAMED) {
            RapidhashStream stream = version.stream(OWN);
            stream.update(OTHER, 0, 200);
            RapidhashStream copy = stream.copy();
            stream.update(OTHER, 0, 100);
            copy.update(OTHER, 200, 100);
            assertEquals(version.hash(OTHER, OWN), copy.getValue());
            stream.reset();
            assertEquals(version.hash(OTHER, OWN), copy.getValue());
        }
    }
}
