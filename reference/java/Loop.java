/** The loops of the benchmark (src/gen/large.rs) for java -Xint: prints nanoseconds a step of the class machine. Each round is ten instructions. */
class Loop {
    static final int ROUNDS = 6_554;

    int total;

    /** iload, iload, iadd, istore; iload, iconst, isub, istore; iload, ifne. */
    int ints(int n) {
        int sum = 0;
        do {
            sum = sum + n;
            n = n - 1;
        } while (n != 0);
        return sum;
    }

    /** aload, iload, putfield; iload, iconst, isub, istore; iconst, iload, if_icmplt. */
    int field(int n) {
        do {
            total = n;
            n = n - 1;
        } while (0 < n);
        return total;
    }

    public static void main(String[] arguments) {
        Loop loop = new Loop();
        Tree.measure("loop of ints", 10 * ROUNDS, () -> loop.ints(ROUNDS));
        Tree.measure("loop with a field", 10 * ROUNDS, () -> loop.field(ROUNDS));
    }
}
