package rdrecord;

import java.io.ByteArrayOutputStream;
import java.io.FileOutputStream;
import java.io.IOException;
import java.lang.ref.WeakReference;
import java.util.IdentityHashMap;
import java.util.Map;

/** A thread of the trace. All fields but the name and the marks of its end are its own thread's alone. */
final class Lane {
    private static final int MOST = 1 << 13;      // bytes before they are written to the file
    final String name;
    volatile boolean joined;                      // some line says that it has ended: it writes no more
    int held;                                     // how many locks of the program it holds
    int quiet;                                    // the recorder itself runs code of the program
    int known;                                    // how many tasks it is in of which the handing in was seen
    Object copied;                                // a container that is being copied
    Object made;                                  // the task of a future that is being made
    Order loose;                                  // of a worker of Java's own: the end of its steps for parallel streams
    Order barrier;                                // where it is inside the wait of a barrier
    final Map<Order, Integer> seen = new IdentityHashMap<>();   // what it has received of each order
    final Map<Order, Integer> shares = new IdentityHashMap<>(); // how often it shares each lock
    final Map<Lane, Boolean> ended = new IdentityHashMap<>();   // of whom it knows that they have ended
    private final String file;                    // where each thread keeps its own lines, or null
    private final ByteArrayOutputStream log;
    WeakReference<Thread> thread;                 // none for main, and for a task
    Order start;                                  // where its name is used again
    Order end;

    Lane(String name, String file) { this(name, file, file == null ? null : new ByteArrayOutputStream()); }

    private Lane(String name, String file, ByteArrayOutputStream log) {
        this.name = name;
        this.file = file;
        this.log = log;
    }

    /** Another thread that goes on under this name. */
    Lane next(WeakReference<Thread> thread) {
        Lane made = new Lane(name, file, log);
        made.thread = thread;
        made.start = start;
        made.end = end;
        made.loose = loose;
        made.seen.putAll(seen);
        return made;
    }

    /** Writes into the log of this thread. */
    void log(byte[] text) throws IOException {
        synchronized (log) {                      // its own thread's alone, until the program ends
            log.write(text);
            if (log.size() > MOST) flush();
        }
    }

    /** Files aren't kept open, since there may be many. */
    void flush() throws IOException {
        if (log == null) return;
        synchronized (log) {
            try (FileOutputStream out = new FileOutputStream(file, true)) {
                log.writeTo(out);
            }
            log.reset();
        }
    }
}
