package geolint;

import java.lang.ref.Cleaner;
import java.util.Objects;

/** Memory of the library for C, with the object that owns it: freed once, by its close or, where nobody closes it, when it is collected. */
abstract class Handle implements AutoCloseable {
    private static final Cleaner CLEANER = Cleaner.create();

    /** A call of {@link Native} that gives memory which has begun, or 0 where there is none. */
    interface Allocation {
        long address(int maxDepth, long maxBytes);
    }

    /** What is left to do: it knows the memory alone, since what knows the owner keeps it. */
    private record Freeing(long address) implements Runnable {
        @Override
        public void run() {
            Native.free(address);
        }
    }

    private final long address;
    private final Cleaner.Cleanable freeing;
    private boolean isClosed;

    Handle(Limits limits, Allocation allocation) {
        Objects.requireNonNull(limits, "limits");
        address = allocation.address(limits.maxDepth(), limits.maxBytes());
        if (address == 0)
            throw new OutOfMemoryError("geolint: no memory for a " + getClass().getSimpleName());
        freeing = CLEANER.register(this, new Freeing(address));
    }

    /**
     * The memory, for one call of {@link Native} under the lock of this. Each call asks for it again: what a host runs between two calls
     * may close this.
     */
    final long memory() {
        if (isClosed)
            throw new IllegalStateException("the " + getClass().getSimpleName() + " is closed");
        return address;
    }

    /** Gives the memory back. A second call does nothing; a call that needs the memory is an {@link IllegalStateException}, also one under way. */
    @Override
    public synchronized void close() {
        isClosed = true;
        freeing.clean();
    }
}
