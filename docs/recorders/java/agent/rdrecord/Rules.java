package rdrecord;

import java.lang.reflect.Method;
import java.lang.reflect.Modifier;
import java.util.ArrayList;
import java.util.HashMap;
import java.util.List;
import java.util.Map;
import java.util.Set;
import org.objectweb.asm.Type;

/**
 * Which calls are replaced: one on a type of Java's by the method of the same name here whose first parameter is that type. In some classes a
 * last parameter is the place besides.
 */
final class Rules {
    private static final Class<?>[] PLAIN = {Threads.class, Locks.class, Tasks.class, Futures.class, Unsafes.class};
    private static final Class<?>[] PLACED = {Maps.class, Collections.class, Atomics.class};
    private static final Set<String> NEVER = Set.of("java/util/ArrayList", "java/util/LinkedList", "java/util/HashMap", "java/util/LinkedHashMap",
        "java/util/TreeMap", "java/util/HashSet", "java/util/LinkedHashSet", "java/util/TreeSet", "java/util/ArrayDeque",
        "java/util/PriorityQueue", "java/util/EnumMap", "java/util/IdentityHashMap", "java/util/WeakHashMap", "java/util/BitSet");
    private static final Map<String, List<Rule>> ALL = new HashMap<>();

    private Rules() { }

    /** One method that stands in place of another. */
    record Rule(String type, String owner, String desc, boolean placed) { }

    static void all() {
        for (Class<?> each : PLAIN) add(each, false);
        for (Class<?> each : PLACED) add(each, true);
    }

    private static void add(Class<?> hooks, boolean placed) {
        for (Method each : hooks.getDeclaredMethods()) {
            Class<?>[] types = each.getParameterTypes();
            if (!Modifier.isPublic(each.getModifiers()) || types.length == 0 || types[0] == Object.class || types[0].isPrimitive()) continue;
            StringBuilder key = new StringBuilder(each.getName()).append('(');
            for (int i = 1; i < types.length - (placed ? 1 : 0); i++) key.append(Type.getDescriptor(types[i]));
            key.append(')').append(Type.getDescriptor(each.getReturnType()));
            Rule rule = new Rule(Type.getInternalName(types[0]), Type.getInternalName(hooks), Type.getMethodDescriptor(each), placed);
            ALL.computeIfAbsent(key.toString(), k -> new ArrayList<>()).add(rule);
        }
    }

    /** What stands in place of a call, or null. The nearest type counts. */
    static Rule find(Classes classes, ClassLoader loader, String owner, String name, String desc) {
        List<Rule> rules = ALL.get(name + desc);
        if (rules == null || owner.startsWith("[") || NEVER.contains(owner) && !Asked.fields()) return null;
        Rule best = null;
        for (Rule each : rules) {
            if (!classes.isA(owner, each.type(), loader)) continue;
            if (best == null || classes.isA(each.type(), best.type(), loader)) best = each;
        }
        return best;
    }
}
