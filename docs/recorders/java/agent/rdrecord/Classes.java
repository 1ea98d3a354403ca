package rdrecord;

import java.io.IOException;
import java.io.InputStream;
import java.util.HashMap;
import java.util.Map;
import java.util.WeakHashMap;
import java.util.concurrent.ConcurrentHashMap;
import org.objectweb.asm.ClassReader;
import org.objectweb.asm.ClassVisitor;
import org.objectweb.asm.FieldVisitor;
import org.objectweb.asm.MethodVisitor;
import org.objectweb.asm.Opcodes;

/** What class files say of classes, which aren't loaded for it. */
final class Classes {
    private static final Map<ClassLoader, Classes> ALL = new WeakHashMap<>();
    private final Map<String, Info> infos = new ConcurrentHashMap<>();
    private static final Info NONE = new Info("?", null, new String[0]);

    private Classes() { }

    /** One class: its name, what is above it, its fields with their access. */
    static final class Info {
        final String name;
        final String above;
        final String[] interfaces;
        final Map<String, Integer> fields = new HashMap<>();
        boolean initializes;

        Info(String name, String above, String[] interfaces) {
            this.name = name;
            this.above = above;
            this.interfaces = interfaces;
        }
    }

    static Classes of(ClassLoader loader) {
        synchronized (ALL) {
            return ALL.computeIfAbsent(loader, l -> new Classes());
        }
    }

    static boolean ofJava(String name) {
        return name.startsWith("java/") || name.startsWith("javax/") || name.startsWith("jdk/") || name.startsWith("sun/");
    }

    /** What these bytes say. */
    Info read(byte[] bytes) {
        ClassReader reader = new ClassReader(bytes);
        Info made = new Info(reader.getClassName(), reader.getSuperName(), reader.getInterfaces());
        reader.accept(new ClassVisitor(Opcodes.ASM9) {
            @Override public FieldVisitor visitField(int access, String name, String desc, String signature, Object value) {
                made.fields.put(name + desc, access);
                return null;
            }

            @Override public MethodVisitor visitMethod(int access, String name, String desc, String signature, String[] exceptions) {
                if (name.equals("<clinit>")) made.initializes = true;
                return null;
            }
        }, ClassReader.SKIP_CODE | ClassReader.SKIP_DEBUG | ClassReader.SKIP_FRAMES);
        infos.put(made.name, made);
        return made;
    }

    Info info(String name, ClassLoader loader) {
        Info known = infos.get(name);
        if (known != null) return known;
        Info made = NONE;
        String file = name + ".class";
        try (InputStream in = ofJava(name) ? ClassLoader.getSystemResourceAsStream(file) : loader.getResourceAsStream(file)) {
            if (in != null) made = read(in.readAllBytes());
        } catch (IOException | RuntimeException e) { }                   // it isn't known then
        infos.put(name, made);
        return made;
    }

    /** Whether a class is another or below it. */
    boolean isA(String name, String other, ClassLoader loader) {
        for (String c = name; c != null; ) {
            if (c.equals(other)) return true;
            Info info = info(c, loader);
            for (String each : info.interfaces) if (isA(each, other, loader)) return true;
            c = info.above;
        }
        return false;
    }

    /** The class that has the field that is meant by this one's, or null. */
    Info declaring(String owner, String field, ClassLoader loader) {
        for (String c = owner; c != null; ) {
            Info info = info(c, loader);
            if (info.fields.containsKey(field)) return info;
            for (String each : info.interfaces) {
                Info found = declaring(each, field, loader);
                if (found != null) return found;
            }
            c = info.above;
        }
        return null;
    }
}
