import com.sun.source.util.JavacTask;
import java.lang.management.ManagementFactory;
import java.lang.management.ThreadMXBean;
import java.net.URI;
import java.nio.file.Files;
import java.nio.file.Path;
import java.util.List;
import javax.tools.DiagnosticCollector;
import javax.tools.JavaCompiler;
import javax.tools.JavaFileObject;
import javax.tools.SimpleJavaFileObject;
import javax.tools.ToolProvider;

/** Times the parse phase of javac on a file: the least of 40 runs in nanoseconds of the processor, after 40 others. */
public class JavacParse {
    public static void main(String[] args) throws Exception {
        String text = Files.readString(Path.of(args[0]));
        JavaFileObject source = new SimpleJavaFileObject(URI.create("string:///Demo.java"), JavaFileObject.Kind.SOURCE) {
            @Override
            public CharSequence getCharContent(boolean ignoreEncodingErrors) {
                return text;
            }
        };
        JavaCompiler compiler = ToolProvider.getSystemJavaCompiler();
        ThreadMXBean clock = ManagementFactory.getThreadMXBean();
        long least = Long.MAX_VALUE;
        for (int run = 0; run < 80; run++) {
            DiagnosticCollector<JavaFileObject> faults = new DiagnosticCollector<>();
            JavacTask task = (JavacTask) compiler.getTask(null, null, faults, List.of("-proc:none"), null, List.of(source));
            long start = clock.getCurrentThreadCpuTime();
            task.parse();
            long taken = clock.getCurrentThreadCpuTime() - start;
            if (!faults.getDiagnostics().isEmpty()) {
                throw new IllegalStateException(faults.getDiagnostics().get(0).toString());
            }
            if (run >= 40) {
                least = Math.min(least, taken);
            }
        }
        System.out.println(least);
    }
}
