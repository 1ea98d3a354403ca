package rdrecord;

/** What the rewritten code calls for streams that may be parallel: what workers do is within the last operation. */
public final class Streams {
    private Streams() { }

    public static void parallel() { Trace.parallel(); }

    public static void before() { Trace.streams(true); }

    public static void after() { Trace.streams(false); }
}
