/** A private method is its class's own, though a class below has one of that name. */
class Privates {
    int of(int x) {
        Base base = x > 0 ? new Derived() : new Base();
        return base.round(x) + new Derived().both(x) + new Inner().outer(this, x);
    }

    private int mine(int x) { return x * 2; }

    static class Inner {
        private int k;
        int outer(Privates p, int x) { k = 3; return p.mine(x) + k; }
    }
}

class Base {
    int round(int x) { return step(x) + 1; }
    private int step(int x) { return x / 10; }
}

class Derived extends Base {
    int step(int x) { return x / 100; }
    int both(int x) { return round(x) * 1000 + step(x); }
}
