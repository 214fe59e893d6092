import java.util.ArrayList;
import java.util.List;

interface Shown {
    int show();
}

enum Colour { RED, BLUE }

record Pair(int a, int b) { }

class Failure extends RuntimeException { }

class Refused implements Shown {
    static int count;
    int[] table;
    long pence;
    String name = "x";
    double rate;

    Refused(int x) { }

    public int show() { return 1; }

    static int helper() { return 2; }

    int many(int a, int b, int c, int d, int e) { return a; }

    synchronized int locked() { return 0; }

    int exceptions(Object o) {
        int z = 1;
        try {
            z = z / 0;
        } catch (ArithmeticException x) {
            z = 1;
        }
        if (o == null) throw new RuntimeException();
        return z;
    }

    int library(Object o) {
        String t = "a" + o;
        List<Integer> q = new ArrayList<>();
        q.add(3);
        Runnable r = () -> count++;
        return q.get(0) + Math.max(1, 2) + o.hashCode();
    }

    int casts(Object o) {
        Refused b = (Refused) o;
        return o instanceof Refused ? (short) b.show() : 0;
    }

    int bits(int x) { return (x & 3) + (x << 2) + (x >> 1); }

    int longs(int x) { long y = x; return (int) (y * 2); }

    int arrays(int x) { int[] a = new int[3]; a[0] = x; return a[0]; }

    Pair made() { return new Pair(1, 2); }
}

class Base {
    int f = 3;
    int m(int x) { return 1; }
    int two(int x) { return 1; }
}

class Derived extends Base {
    int m(int x) { return super.m(x) + 1; }
    int two(boolean x) { return 2; }
    class Inner { int g() { return two(1); } }
}

abstract class Shape { abstract int area(); }
