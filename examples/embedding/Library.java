import com.sun.jna.Memory;
import com.sun.jna.Native;
import com.sun.jna.Pointer;
import com.sun.jna.ptr.LongByReference;
import java.nio.ByteBuffer;
import java.nio.ByteOrder;
import java.nio.charset.StandardCharsets;

/** Library TEXT..: the canonical links of pure identity URIs, by libtdl over JNA, in four threads with a session each over the same tables. */
public final class Library implements AutoCloseable {
    private static final int PURE = 2, CANON = 6, ANY_FILTER = 255, ANY_GCP = 0, OK = 0, NO = 1, ROOM = 8192, CHOICE = 16, THREADS = 4;
    private static final byte[] STEM = "https://id.gs1.org".getBytes(StandardCharsets.US_ASCII);

    static {
        Native.register("libtdl.so.1");
    }

    private final Memory handle = new Memory(Native.POINTER_SIZE);
    private final byte[] out = new byte[ROOM];
    private final LongByReference length = new LongByReference();

    private static native int tdl_open(Pointer handle, byte[] choice, byte[] encoding, long encodingLength, byte[] stem, long stemLength,
            byte[] tables, long tablesLength, byte[] prefixes, long prefixesLength, byte[] out, long capacity, LongByReference length);

    private static native int tdl_share(Pointer handle, Pointer other, byte[] choice, byte[] encoding, long encodingLength, byte[] stem,
            long stemLength);

    private static native int tdl_translate(Pointer handle, byte[] text, long textLength, byte[] out, long capacity, LongByReference length);

    private static native void tdl_close(Pointer handle);

    /** Opens a session over the built-in tables. */
    Library() {
        handle.clear();
        check(tdl_open(handle, choice(), null, 0, STEM, STEM.length, null, 0, null, 0, out, ROOM, length));
    }

    /** Opens a session over the tables of another. */
    Library(Library other) {
        handle.clear();
        check(tdl_share(handle, other.handle, choice(), null, 0, STEM, STEM.length));
    }

    private static byte[] choice() {
        byte[] choice = ByteBuffer.allocate(CHOICE).order(ByteOrder.nativeOrder()).putLong(CHOICE).put((byte) PURE).put((byte) CANON)
                .put((byte) ANY_FILTER).put((byte) ANY_GCP).putInt(0).array();
        return choice;
    }

    private static void check(int status) {
        if (status != OK) throw new IllegalStateException("libtdl: status " + status);
    }

    /** Returns `ok` and the translation, or `no` and the reason why there is none. */
    synchronized String translate(String text) {
        byte[] bytes = text.getBytes(StandardCharsets.UTF_8);
        int status = tdl_translate(handle, bytes, bytes.length, out, ROOM, length);
        if (status != NO) check(status);
        return (status == OK ? "ok " : "no ") + new String(out, 0, (int) length.getValue(), StandardCharsets.US_ASCII);
    }

    @Override
    public synchronized void close() {
        tdl_close(handle);
    }

    public static void main(String[] texts) throws InterruptedException {
        String[] answers = new String[texts.length];
        Thread[] started = new Thread[THREADS];
        try (Library first = new Library()) {
            for (int k = 0; k < THREADS; k++) {
                int from = k;
                Library own = new Library(first);
                started[k] = new Thread(() -> {
                    try (own) {
                        for (int n = from; n < texts.length; n += THREADS) answers[n] = own.translate(texts[n]);
                    }
                });
                started[k].start();
            }
            for (Thread thread : started) thread.join();
        }
        for (String answer : answers) System.out.println(answer);
    }
}
