package geolint;

import java.io.IOException;
import java.io.InterruptedIOException;
import java.nio.ByteBuffer;
import java.nio.channels.FileChannel;
import java.nio.file.Files;
import java.nio.file.Path;
import java.nio.file.StandardOpenOption;
import java.nio.file.attribute.FileTime;
import java.util.ArrayList;
import java.util.List;
import java.util.Objects;
import java.util.concurrent.Callable;
import java.util.concurrent.ExecutionException;
import java.util.concurrent.ExecutorService;
import java.util.concurrent.Executors;
import java.util.concurrent.Future;

/**
 * One text in a file, in parts that threads check at once. What a part says is true of its bytes alone, and the join passes over a part only
 * where a feature has just ended: so the verdict is that of one reading, wherever the parts begin.
 */
final class Parts {
    /** A part that has fewer bytes is not worth a thread. */
    static final long LEAST = 4 << 20;

    /** So many bytes are read at once, and a place is tried by so many, and by so many for all trials at the most. */
    private static final int PIECE = 1 << 18;
    private static final int TRIAL = 1 << 16;
    private static final int ALL_TRIALS = 1 << 24;
    /** So many are looked at together with those before. */
    private static final int SEAM = 256;

    /** Features from a place on. */
    private static final class Run extends Handle {
        private final long begin;
        private final long[] sum = new long[3];
        private boolean isOpen = true;

        Run(Limits limits, long begin) {
            super(limits, (depth, bytes) -> Native.newRun(depth, begin));
            this.begin = begin;
        }

        private synchronized void feed(ByteBuffer bytes) {
            int status = Native.feedRun(memory(), bytes, bytes.limit(), sum);
            isOpen = status == Native.OPEN && sum[2] == 0;
        }

        private long end() {
            return sum[0];
        }

        private boolean hasFeatures() {
            return sum[1] > 0;
        }
    }

    /** A reading of the rest. */
    private static final class Join extends Handle {
        Join(Limits limits) {
            super(limits, Native::newJoin);
        }

        private synchronized boolean feed(ByteBuffer bytes) {
            return Native.feedJoin(memory(), bytes, bytes.limit()) == Native.OPEN;
        }

        private synchronized boolean passOver(Run run) {
            return Native.passOver(memory(), run.memory());
        }

        private synchronized Verdict finish() {
            long[] report = new long[Native.REPORT];
            Native.finishJoin(memory(), report);
            return Native.verdict(report);
        }
    }

    private final FileChannel file;
    private final long size;
    private final Limits limits;

    private Parts(FileChannel file, Limits limits) throws IOException {
        this.file = file;
        this.limits = limits;
        size = file.size();
    }

    static Verdict check(Path path, int jobs, Limits limits, long least) throws IOException {
        Objects.requireNonNull(limits, "limits");
        if (jobs < 1)
            throw new IllegalArgumentException("jobs is 1 or more: " + jobs);
        try (FileChannel file = FileChannel.open(path, StandardOpenOption.READ)) {
            FileTime modified = Files.getLastModifiedTime(path);
            Parts parts = new Parts(file, limits);
            long end = Math.min(parts.size, limits.maxBytes());
            Verdict verdict = parts.check((int) Math.max(1, Math.min(jobs, end / least)), end);
            if (file.size() != parts.size || !Files.getLastModifiedTime(path).equals(modified))
                throw new IOException("the file changed while it was read: " + path);
            return verdict;
        }
    }

    private Verdict check(int count, long end) throws IOException {
        List<Run> runs = new ArrayList<>();
        ExecutorService threads = Executors.newFixedThreadPool(count);
        try {
            List<Callable<Long>> seeks = new ArrayList<>();
            for (int part = 0; part < count && count > 1; part++) {
                long from = end / count * part, until = part + 1 < count ? end / count * (part + 1) : end;
                seeks.add(() -> likely(from, until));
            }
            List<Long> begins = all(threads, seeks).stream().filter(place -> place >= 0).toList();
            List<Callable<Run>> reads = new ArrayList<>();
            for (int part = 0; part < begins.size(); part++) {
                long begin = begins.get(part), until = part + 1 < begins.size() ? begins.get(part + 1) : end;
                reads.add(() -> run(begin, until, PIECE, false));
            }
            runs.addAll(all(threads, reads));
            return joined(runs);
        } finally {
            threads.shutdownNow();
            runs.forEach(Run::close);
        }
    }

    /** What all threads answer, in turn. An interrupt ends their reads. */
    private static <T> List<T> all(ExecutorService threads, List<Callable<T>> calls) throws IOException {
        try {
            List<T> answers = new ArrayList<>();
            for (Future<T> answer : threads.invokeAll(calls))
                answers.add(answer.get());
            return answers;
        } catch (ExecutionException failure) {
            if (failure.getCause() instanceof IOException cause)
                throw cause;
            throw new IllegalStateException(failure.getCause());
        } catch (InterruptedException interrupted) {
            Thread.currentThread().interrupt();
            throw new InterruptedIOException("interrupted while a file was checked");
        }
    }

    /** Reads at most so many bytes at a place; the buffer's limit is how many there are. */
    private boolean read(ByteBuffer buffer, long place, long most) throws IOException {
        buffer.clear().limit((int) Math.max(0, Math.min(buffer.capacity(), most)));
        while (buffer.hasRemaining() && file.read(buffer, place + buffer.position()) >= 0)
            continue;
        buffer.flip();
        return buffer.limit() > 0;
    }

    /** The run that begins at a place, by the bytes up to another; with {@code enough} once it has a feature. */
    private Run run(long begin, long until, int size, boolean enough) throws IOException {
        ByteBuffer buffer = ByteBuffer.allocateDirect(size);
        Run run = new Run(limits, begin);
        for (long place = begin; run.isOpen && !(enough && run.hasFeatures()) && read(buffer, place, until - place); place += buffer.limit())
            run.feed(buffer);
        return run;
    }

    /** The first place in a range where a feature seems to have ended, and another to follow; -1 where there is none. */
    private long likely(long from, long until) throws IOException {
        ByteBuffer buffer = ByteBuffer.allocateDirect(TRIAL);
        for (long place = from; place < Math.min(until, from + ALL_TRIALS) && read(buffer, place, TRIAL); ) {
            int count = Native.likely(buffer, buffer.limit());
            if (count == 0 && buffer.limit() <= SEAM)
                break;
            place += count > 0 ? count : buffer.limit() - SEAM;
            if (count > 0 && place < until && begins(place))
                return place;
        }
        return -1;
    }

    private boolean begins(long place) throws IOException {
        try (Run run = run(place, place + PIECE, TRIAL, true)) {
            return run.hasFeatures() && run.isOpen;
        }
    }

    private Verdict joined(List<Run> runs) throws IOException {
        ByteBuffer buffer = ByteBuffer.allocateDirect(PIECE);
        try (Join join = new Join(limits)) {
            long place = 0;
            for (Run run : runs) {
                place = feed(join, buffer, place, run.begin);
                if (place == run.begin && run.hasFeatures() && join.passOver(run))
                    place = run.end();
            }
            feed(join, buffer, place, size);
            return join.finish();
        }
    }

    /** Feeds the bytes from one place up to another, and answers how far that went. */
    private long feed(Join join, ByteBuffer buffer, long from, long until) throws IOException {
        long place = from;
        for (boolean isOpen = true; isOpen && read(buffer, place, until - place); place += buffer.limit())
            isOpen = join.feed(buffer);
        return place;
    }
}
