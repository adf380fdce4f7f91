import com.tdunning.math.stats.AVLTreeDigest;
import java.lang.management.ManagementFactory;
import java.nio.ByteBuffer;
import java.nio.ByteOrder;
import java.nio.channels.FileChannel;
import java.nio.file.Path;
import java.util.Arrays;
import java.util.stream.Collectors;
import java.util.stream.IntStream;
import org.HdrHistogram.Histogram;

/**
 * Peers DIR avl|hdr SETTING ROUNDS STREAM..: Dunning's t-digest 3.0 (AVLTreeDigest) and HdrHistogram 2.1, as Debian packages them.
 * The range of an HdrHistogram is an hour in microseconds; with a setting of -2 or -3 digits it grows by itself. The output is
 * records, as those of by_lines. Times are those of the thread's processor, so without the compiler's and the collector's.
 */
class Peers {
    static final double[] PERCENTILES = {0.5, 0.9, 0.99, 0.999, 0.9999, 0.99999};
    static final int PARTS = 168, COPIES = 200;
    static final long LONGEST = 3_600_000_000L;

    interface Peer {
        void take(long item);
        void join(Peer other);
        double answer(double fraction);
        String image();
        Peer copy();
    }

    /** A t-digest; setting: its compression. */
    static class Digest implements Peer {
        AVLTreeDigest digest;

        Digest(int compression) { digest = new AVLTreeDigest(compression); }
        public void take(long item) { digest.add((double) item, 1); }
        public void join(Peer other) { digest.add(((Digest) other).digest); }
        public double answer(double fraction) { return digest.quantile(fraction); }
        public String image() {
            digest.compress();
            return digest.byteSize() + " " + digest.smallByteSize();
        }
        public Peer copy() {
            ByteBuffer bytes = ByteBuffer.allocate(digest.byteSize());
            digest.asBytes(bytes);
            bytes.flip();
            Digest made = new Digest(1);
            made.digest = AVLTreeDigest.fromBytes(bytes);
            return made;
        }
    }

    /** An HdrHistogram; setting: its digits. */
    static class Hdr implements Peer {
        Histogram counts;

        Hdr(int digits) { counts = digits < 0 ? new Histogram(-digits) : new Histogram(LONGEST, digits); }
        public void take(long item) { counts.recordValue(item); }
        public void join(Peer other) { counts.add(((Hdr) other).counts); }
        public double answer(double fraction) { return counts.getValueAtPercentile(100 * fraction); }
        public String image() {
            ByteBuffer bytes = ByteBuffer.allocate(counts.getNeededByteBufferCapacity());
            int plain = counts.encodeIntoByteBuffer(bytes);
            bytes.clear();
            return plain + " " + counts.encodeIntoCompressedByteBuffer(bytes);
        }
        public Peer copy() {
            Hdr made = new Hdr(2);
            made.counts = counts.copy();
            return made;
        }
    }

    final String name;
    final boolean isAvl;
    final int setting;
    long refused;

    Peers(String peer, int setting) {
        isAvl = peer.equals("avl");
        this.setting = setting;
        name = (isAvl ? "tdigest_avl " : "hdr_java ") + (setting < 0 ? "auto" : "") + Math.abs(setting);
    }

    Peer make() { return isAvl ? new Digest(setting) : new Hdr(setting); }

    Peer filled(long[] items, int from, int to) {
        Peer made = make();
        refused = 0;
        for (int at = from; at < to; at++) {
            try {
                made.take(items[at]);
            } catch (ArrayIndexOutOfBoundsException outside) {
                refused++;
            }
        }
        return made;
    }

    void says(String what, String stream, Object figures) { System.out.println(what + " " + name + " " + stream + " " + figures); }

    void answers(String stream, Peer peer) {
        says("answers", stream, Arrays.stream(PERCENTILES).mapToObj(it -> String.format("%.3f", peer.answer(it)))
                .collect(Collectors.joining(" ")));
    }

    static double now() { return ManagementFactory.getThreadMXBean().getCurrentThreadCpuTime(); }

    static long heap() {
        for (int i = 0; i < 3; i++) System.gc();
        return Runtime.getRuntime().totalMemory() - Runtime.getRuntime().freeMemory();
    }

    /** The bytes of the heap for each of many copies. */
    static long live(Peer peer) {
        Peer[] copies = new Peer[COPIES];
        long before = 0;
        for (int turn = 0; turn < 2; turn++) {
            Arrays.fill(copies, null);
            before = heap();
            Arrays.setAll(copies, it -> peer.copy());
        }
        long after = heap();
        return copies[0] == null ? 0 : (after - before) / COPIES;
    }

    void measure(String stream, long[] items, int rounds) {
        Peer last = null;
        for (int round = 0; round < rounds; round++) {
            double begun = now();
            last = filled(items, 0, items.length);
            says("update_ns", stream, (now() - begun) / items.length);
            answers(stream, last);
        }
        if (refused > 0) says("note", stream, refused + " items refused");
        says("image", stream, last.image());
        says("live", stream, live(last));
        if (stream.equals("latency") || stream.equals("bursts")) merges(stream, items, rounds);
    }

    void merges(String stream, long[] items, int rounds) {
        long count = items.length;
        Peer[] parts = IntStream.range(0, PARTS)
                .mapToObj(it -> filled(items, (int) (count * it / PARTS), (int) (count * (it + 1) / PARTS))).toArray(Peer[]::new);
        for (int round = 0; round < rounds; round++) {
            Peer all = make();
            double begun = now();
            for (Peer part : parts) all.join(part);
            says("merge_ns", stream, (now() - begun) / PARTS);
            answers(stream + "+merge", all);
        }
    }

    static long[] read(Path path) throws Exception {
        try (FileChannel file = FileChannel.open(path)) {
            ByteBuffer bytes = file.map(FileChannel.MapMode.READ_ONLY, 0, file.size()).order(ByteOrder.LITTLE_ENDIAN);
            long[] items = new long[(int) (file.size() / Long.BYTES)];
            bytes.asLongBuffer().get(items);
            return items;
        }
    }

    public static void main(String[] words) throws Exception {
        for (String stream : Arrays.copyOfRange(words, 4, words.length)) {
            long[] items = read(Path.of(words[0], stream + ".i64"));
            new Peers(words[1], Integer.parseInt(words[2])).measure(stream, items, Integer.parseInt(words[3]));
        }
    }
}
