/** The call trees of the benchmark (src/gen/large.rs) for java -Xint: prints nanoseconds a step of the class machine. */
class Tree {
    int total;

    int a0(int n) { total = total + n; return a1(n) + a1(n); }
    int a1(int n) { total = total + n; return a2(n) + a2(n); }
    int a2(int n) { total = total + n; return a3(n) + a3(n); }
    int a3(int n) { total = total + n; return a4(n) + a4(n); }
    int a4(int n) { total = total + n; return a5(n) + a5(n); }
    int a5(int n) { total = total + n; return a6(n) + a6(n); }
    int a6(int n) { total = total + n; return a7(n) + a7(n); }
    int a7(int n) { Tree made = new Tree(); return total + n; }

    int b6(int n) { Tree made = new Tree(); total = total + n; return b7(n) + b7(n); }
    int b7(int n) { total = total + n; return b8(n) + b8(n); }
    int b8(int n) { total = total + n; return b9(n) + b9(n); }
    int b9(int n) { total = total + n; return b10(n) + b10(n); }
    int b10(int n) { total = total + n; return b11(n) + b11(n); }
    int b11(int n) { return total + n; }

    int c0(int n) { total = total + n; return c1(n, n, n) + c1(n, n, n); }
    int c1(int age, int sum, int region) { total = total + age; return c2(age, sum, region) + c2(age, sum, region); }
    int c2(int age, int sum, int region) { total = total + age; return c3(age, sum, region) + c3(age, sum, region); }
    int c3(int age, int sum, int region) { total = total + age; return c4(age, sum, region) + c4(age, sum, region); }
    int c4(int age, int sum, int region) { total = total + age; return c5(age, sum, region) + c5(age, sum, region); }
    int c5(int age, int sum, int region) { total = total + age; return c6(age, sum, region) + c6(age, sum, region); }
    int c6(int age, int sum, int region) { total = total + age; return c7(age, sum, region) + c7(age, sum, region); }
    int c7(int age, int sum, int region) { Tree made = new Tree(); return total + age + sum + region; }

    static class Upper extends Tree {
        int b0(int n) { total = total + n; return b1(n) + b1(n); }
        int b1(int n) { total = total + n; return b2(n) + b2(n); }
        int b2(int n) { total = total + n; return b3(n) + b3(n); }
        int b3(int n) { total = total + n; return b4(n) + b4(n); }
        int b4(int n) { total = total + n; return b5(n) + b5(n); }
        int b5(int n) { total = total + n; return b6(n) + b6(n); }
    }

    interface Call { int made(); }

    static int sum;

    /** The least time of many rounds, as the benchmark takes it. */
    static void measure(String name, int steps, Call call) {
        long least = Long.MAX_VALUE;
        long end = System.nanoTime() + 1_000_000_000L;
        while (System.nanoTime() < end) {
            long clock = System.nanoTime();
            sum += call.made();
            least = Math.min(least, System.nanoTime() - clock);
        }
        System.out.printf("| %s, a step of %d | %.1f ns |%n", name, steps, (double) least / steps);
    }

    public static void main(String[] arguments) {
        System.out.println("| java -Xint | a step |");
        System.out.println("|---|---|");
        measure("tree", 2674, () -> new Tree().a0(3));
        measure("tall tree", 39026, () -> new Upper().b0(3));
        measure("tree of three arguments", 3694, () -> new Tree().c0(3));
        Loop.main(arguments);
    }
}
