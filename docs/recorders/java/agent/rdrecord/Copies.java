package rdrecord;

import java.util.Collection;
import java.util.Map;

/** What the rewritten code calls around a copy that Java's own code makes of a container. */
public final class Copies {
    private Copies() { }

    public static void copying(Object from) {
        if (Trace.several() && from != null && !from.getClass().getName().equals("java.util.ArrayList")) Trace.me().copied = from;
    }

    public static void copied() {
        if (!Trace.several()) return;
        Lane me = Trace.me();
        Object from = me.copied;
        me.copied = null;
        if (from instanceof Collection<?> all) Collections.copied(all);
        else if (from instanceof Map<?, ?> map) Maps.copied(map);
    }
}
