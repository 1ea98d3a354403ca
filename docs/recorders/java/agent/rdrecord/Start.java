package rdrecord;

import java.io.File;
import java.lang.instrument.Instrumentation;
import java.util.jar.JarFile;

/** Puts this jar before all class loaders, since the classes of each of them call the recorder, and begins. */
public final class Start {
    private Start() { }

    public static void premain(String file, Instrumentation instrumentation) {
        try {
            if (Start.class.getClassLoader() != null) {                  // the jar has another name than its manifest says
                File jar = new File(Start.class.getProtectionDomain().getCodeSource().getLocation().toURI());
                instrumentation.appendToBootstrapClassLoaderSearch(new JarFile(jar));
            }
            Class.forName("rdrecord.Agent", true, null).getMethod("begin", String.class, Instrumentation.class).invoke(null, file, instrumentation);
        } catch (Throwable e) {
            System.err.println("rdrecord: nothing is recorded: " + e);
        }
    }
}
