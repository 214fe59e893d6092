import java.io.BufferedReader;
import java.io.IOException;
import java.io.InputStreamReader;
import java.lang.reflect.Constructor;
import java.lang.reflect.InvocationTargetException;
import java.lang.reflect.Method;
import java.net.URI;
import java.nio.file.FileSystems;
import java.nio.file.Files;
import java.nio.file.Path;
import java.util.HashMap;
import java.util.Iterator;
import java.util.Map;
import java.util.stream.Stream;

/**
 * Runs methods from int to int on HotSpot, under loaders as the box has them, and prints what comes of each. It reads lines:
 *
 *   fresh                        all loaders are forgotten
 *   loader L defines NAME PATH   the class file at PATH is what loader L makes of NAME
 *   loader L records NAME of M   loader L leaves NAME to loader M
 *   run L NAME METHOD INT        prints the int, or a word for what stopped it: those of the box
 *
 * With a folder and a number it copies every so many class files of the JDK there.
 */
class Runner {
    static final class Loader extends ClassLoader {
        final Map<String, Path> own = new HashMap<>();
        final Map<String, Loader> others = new HashMap<>();

        Loader() {
            super(null);
        }

        @Override
        protected synchronized Class<?> loadClass(String name, boolean resolve) throws ClassNotFoundException {
            Class<?> there = findLoadedClass(name);
            if (there != null) {
                return there;
            }
            if (others.containsKey(name)) {
                return others.get(name).loadClass(name);
            }
            if (!own.containsKey(name)) {
                return super.loadClass(name, resolve);
            }
            try {
                byte[] bytes = Files.readAllBytes(own.get(name));
                return defineClass(name, bytes, 0, bytes.length);
            } catch (IOException failed) {
                throw new ClassNotFoundException(name, failed);
            }
        }
    }

    static final Map<Integer, Loader> loaders = new HashMap<>();

    static Loader loader(String number) {
        return loaders.computeIfAbsent(Integer.parseInt(number), any -> new Loader());
    }

    /** The method from int that a start on the box would select. */
    static Method selected(Class<?> of, String name) throws NoSuchMethodException {
        for (Class<?> at = of; at != null; at = at.getSuperclass()) {
            for (Method method : at.getDeclaredMethods()) {
                Class<?>[] types = method.getParameterTypes();
                if (method.getName().equals(name) && types.length == 1 && types[0] == int.class) {
                    method.setAccessible(true);
                    return method;
                }
            }
        }
        throw new NoSuchMethodException(name);
    }

    static String run(String loader, String name, String method, int value) {
        try {
            Class<?> of = loader(loader).loadClass(name);
            Constructor<?> made = of.getDeclaredConstructor();
            made.setAccessible(true);
            Object result = selected(of, method).invoke(made.newInstance(), value);
            return result instanceof Boolean ? ((Boolean) result ? "1" : "0") : result == null ? "0" : result.toString();
        } catch (InvocationTargetException stopped) {
            return word(stopped.getCause());
        } catch (ReflectiveOperationException | LinkageError stopped) {
            return word(stopped);
        }
    }

    static String word(Throwable stopped) {
        return stopped instanceof ArithmeticException ? "zero divisor"
            : stopped instanceof NullPointerException ? "null"
            : stopped instanceof StackOverflowError ? "full"
            : stopped instanceof LinkageError ? "clash"
            : stopped.toString();
    }

    /** Copies every so many class files of java.base to a folder. */
    static void dump(Path folder, int every) throws IOException {
        Path base = FileSystems.getFileSystem(URI.create("jrt:/")).getPath("modules", "java.base");
        try (Stream<Path> all = Files.walk(base)) {
            Iterator<Path> files = all.filter(path -> path.toString().endsWith(".class")).sorted().iterator();
            for (int i = 0; files.hasNext(); i++) {
                Path file = files.next();
                if (i % every == 0) {
                    Files.write(folder.resolve(i + ".class"), Files.readAllBytes(file));
                }
            }
        }
    }

    public static void main(String[] arguments) throws IOException {
        if (arguments.length == 2) {
            dump(Path.of(arguments[0]), Integer.parseInt(arguments[1]));
            return;
        }
        BufferedReader lines = new BufferedReader(new InputStreamReader(System.in, "UTF-8"));
        StringBuilder out = new StringBuilder();
        for (String line = lines.readLine(); line != null; line = lines.readLine()) {
            String[] words = line.split(" ");
            if (words[0].equals("fresh")) {
                loaders.clear();
            } else if (words[0].equals("run")) {
                out.append(run(words[1], words[2], words[3], Integer.parseInt(words[4]))).append('\n');
            } else if (words[2].equals("defines")) {
                loader(words[1]).own.put(words[3], Path.of(words[4]));
            } else {
                loader(words[1]).others.put(words[3], loader(words[5]));
            }
        }
        System.out.print(out);
    }
}
