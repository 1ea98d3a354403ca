package rdrecord;

import java.lang.instrument.ClassFileTransformer;
import java.lang.instrument.Instrumentation;
import java.security.ProtectionDomain;
import java.util.Map;
import java.util.Set;

/**
 * Records a program as it is: java -javaagent:rdagent.jar=run.trace PROGRAM. The classes of the program and of its libraries are rewritten,
 * Java's own aren't.
 */
public final class Agent {
    private Agent() { }

    public static void begin(String file, Instrumentation instrumentation) {
        try {
            String asked = System.getenv("RDRECORD_OBJECTS");
            if (asked != null && !asked.isEmpty()) Asked.read(asked);
            Module java = Object.class.getModule();
            instrumentation.redefineModule(java, Set.of(), Map.of(), Map.of("java.util", Set.of(Agent.class.getModule())), Set.of(), Map.of());
            String named = System.getenv("RDRECORD");
            Trace.begin(file != null && !file.isEmpty() ? file : named != null && !named.isEmpty() ? named : "run.trace");
            Rules.all();
            instrumentation.addTransformer(new ClassFileTransformer() {
                @Override public byte[] transform(ClassLoader loader, String name, Class<?> known, ProtectionDomain domain, byte[] bytes) {
                    return rewritten(loader, name, bytes);
                }
            });
        } catch (Throwable e) {
            System.err.println("rdrecord: nothing is recorded: " + e);
        }
    }

    private static byte[] rewritten(ClassLoader loader, String name, byte[] bytes) {
        if (loader == null || loader == ClassLoader.getPlatformClassLoader() || name == null) return null;
        Lane me = Trace.me();
        me.quiet++;                                                      // a loader of the program may be asked for classes
        try {
            return Rewriter.rewrite(loader, bytes);
        } catch (Throwable e) {
            Trace.tell("not rewritten, so its orders are lost: " + name + " " + e);
            System.err.println("rdrecord: not rewritten: " + name + " " + e);
            return null;
        } finally {
            me.quiet--;
        }
    }
}
