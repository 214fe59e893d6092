/**
 * What Java makes of the pairs of ints in src/gen/rates.rs: for all pairs of its edges, and for a hundred thousand random ones, sums over all
 * products and quotients by which every difference shows, and how often a divisor is 0.
 */
class Rates {
    static long state = 4 * 0x9E3779B97F4A7C15L ^ 0xD1B54A32D192ED03L;

    /** The next of splitmix64, cut to an int. */
    static int draw() {
        state += 0x9E3779B97F4A7C15L;
        long z = state;
        z = (z ^ z >>> 30) * 0xBF58476D1CE4E5B9L;
        z = (z ^ z >>> 27) * 0x94D049BB133111EBL;
        return (int) (z ^ z >>> 31);
    }

    static int[] edges() {
        int[] bits = {0, 1, 2, 3, 7, 8, 14, 15, 16, 23, 24, 30, 31};
        int[] more = {7, 10, 12, 100, 365, 1_000, 46_340, 46_341};
        int[] edges = new int[6 * bits.length + 2 * more.length];
        int count = 0;
        for (int bit : bits) {
            for (int by = -1; by <= 1; by++) {
                edges[count++] = (1 << bit) + by;
                edges[count++] = -((1 << bit) + by);
            }
        }
        for (int one : more) {
            edges[count++] = one;
            edges[count++] = -one;
        }
        return edges;
    }

    long products, quotients;
    int pairs, refused;

    void add(int one, int other) {
        pairs++;
        products = products * 31 + one * other;
        long quotient;
        try {
            quotient = one / other;
        } catch (ArithmeticException e) {
            quotient = 1L << 32;
            refused++;
        }
        quotients = quotients * 31 + quotient;
    }

    void print(String what) {
        System.out.printf("%s pairs %d: products %016x, quotients %016x, zero divisors %d%n", what, pairs, products, quotients, refused);
    }

    public static void main(String[] arguments) {
        Rates edge = new Rates();
        int[] edges = edges();
        for (int one : edges) {
            for (int other : edges) {
                edge.add(one, other);
            }
        }
        edge.print("edge");
        Rates random = new Rates();
        for (int i = 0; i < 100_000; i++) {
            int one = draw(), other = draw();
            random.add(one, other >> (draw() & 31));
        }
        random.print("random");
    }
}
