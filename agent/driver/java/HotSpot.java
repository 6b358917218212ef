import java.io.BufferedReader;
import java.io.InputStreamReader;
import java.lang.reflect.Method;
import java.nio.file.Files;
import java.nio.file.Path;
import java.util.ArrayList;
import java.util.LinkedHashMap;
import java.util.List;
import java.util.Map;

/** What HotSpot takes to define and verify the classes of bundles (`load ROUNDS BUNDLE...`) and to run the sample Bench (`run BUNDLE ROUNDS METHOD=COUNT...`). */
public class HotSpot {
    public static void main(String[] words) throws Exception {
        List<String> rest = List.of(words).subList(1, words.length);
        if (words[0].equals("load")) {
            load(Integer.parseInt(rest.get(0)), rest.subList(1, rest.size()));
        } else {
            run(rest.get(0), Integer.parseInt(rest.get(1)), rest.subList(2, rest.size()));
        }
    }

    /** Nanoseconds that one loading of all bundles takes in HotSpot's own counters. */
    static void load(int rounds, List<String> paths) throws Exception {
        List<Map<String, byte[]>> bundles = new ArrayList<>();
        for (String path : paths) {
            bundles.add(classes(Files.readAllBytes(Path.of(path))));
        }
        loadAll(bundles);
        long[] before = counters();
        for (int round = 0; round < rounds; round++) {
            loadAll(bundles);
        }
        long[] after = counters();
        System.out.println("define\t" + (after[0] - before[0]) / rounds);
        System.out.println("verify\t" + (after[1] - before[1]) / rounds);
    }

    static void loadAll(List<Map<String, byte[]>> bundles) throws Exception {
        for (Map<String, byte[]> classes : bundles) {
            Loader loader = new Loader(classes);
            for (String name : classes.keySet()) {
                Class.forName(name, true, loader);
            }
        }
    }

    /** Nanoseconds of defining (parsing and more) and of verifying so far. */
    static long[] counters() throws Exception {
        String pid = String.valueOf(ProcessHandle.current().pid());
        Process process = new ProcessBuilder("jcmd", pid, "PerfCounter.print").start();
        long define = 0;
        long verify = 0;
        long frequency = 1;
        try (BufferedReader lines = new BufferedReader(new InputStreamReader(process.getInputStream()))) {
            for (String line = lines.readLine(); line != null; line = lines.readLine()) {
                String[] parts = line.split("=");
                switch (parts[0]) {
                    case "sun.cls.defineAppClassTime.self":
                        define = Long.parseLong(parts[1]);
                        break;
                    case "sun.cls.classVerifyTime.self":
                        verify = Long.parseLong(parts[1]);
                        break;
                    case "sun.os.hrt.frequency":
                        frequency = Long.parseLong(parts[1]);
                        break;
                    default:
                }
            }
        }
        return new long[] {define * 1_000_000_000L / frequency, verify * 1_000_000_000L / frequency};
    }

    /** Nanoseconds of the fastest of so many calls of each method. */
    static void run(String path, int rounds, List<String> methods) throws Exception {
        Loader loader = new Loader(classes(Files.readAllBytes(Path.of(path))));
        for (String word : methods) {
            String[] parts = word.split("=");
            Method method = Class.forName("Bench", true, loader).getMethod(parts[0], int.class);
            long least = Long.MAX_VALUE;
            for (int round = 0; round < rounds; round++) {
                long start = System.nanoTime();
                method.invoke(null, Integer.parseInt(parts[1]));
                least = Math.min(least, System.nanoTime() - start);
            }
            System.out.println(parts[0] + "\t" + least);
        }
    }

    static class Loader extends ClassLoader {
        private final Map<String, byte[]> classes;

        Loader(Map<String, byte[]> classes) {
            super(HotSpot.class.getClassLoader());
            this.classes = classes;
        }

        @Override
        protected Class<?> findClass(String name) throws ClassNotFoundException {
            byte[] bytes = classes.get(name);
            if (bytes == null) {
                throw new ClassNotFoundException(name);
            }
            return defineClass(name, bytes, 0, bytes.length);
        }
    }

    /** The class files of a bundle by name. */
    static Map<String, byte[]> classes(byte[] bundle) {
        Map<String, byte[]> classes = new LinkedHashMap<>();
        for (int start = 0; start < bundle.length; ) {
            File file = new File(bundle, start);
            classes.put(file.name, java.util.Arrays.copyOfRange(bundle, start, file.at));
            start = file.at;
        }
        return classes;
    }

    /** One class file, read up to its end. */
    static class File {
        private final byte[] bytes;
        private int at;
        private String name;

        File(byte[] bytes, int start) {
            this.bytes = bytes;
            at = start + 8;
            int[] places = pool();
            at += 2;
            int named = number(places[number(at)] + 1);
            int text = places[named] + 1;
            name = new String(bytes, text + 2, number(text)).replace('/', '.');
            at += 4;
            at += 2 + 2 * number(at);
            members();
            members();
            attributes();
        }

        private int[] pool() {
            int[] places = new int[number(at)];
            at += 2;
            for (int i = 1; i < places.length; i++) {
                places[i] = at;
                switch (bytes[at]) {
                    case 1:
                        at += 3 + number(at + 1);
                        break;
                    case 7: case 8:
                        at += 3;
                        break;
                    default:
                        at += 5;
                }
            }
            return places;
        }

        private void members() {
            int count = number(at);
            at += 2;
            for (int i = 0; i < count; i++) {
                at += 6;
                attributes();
            }
        }

        private void attributes() {
            int count = number(at);
            at += 2;
            for (int i = 0; i < count; i++) {
                at += 6 + (number(at + 2) << 16 | number(at + 4));
            }
        }

        private int number(int place) {
            return (bytes[place] & 0xff) << 8 | bytes[place + 1] & 0xff;
        }
    }
}
