/** Fields of one name in a class and above it, and methods that mean one or the other. */
class Hidden {
    int of(int x) {
        Lower lower = new Lower();
        Upper upper = lower;
        upper.f = x;
        lower.f = x + 1;
        lower.set(5);
        upper.set(upper.f + lower.f);
        return upper.f * 1000 + lower.f * 10 + upper.get() + lower.twice();
    }
}

class Upper {
    int f;
    Upper self;

    void set(int x) { f += x; }
    int get() { return f; }
}

class Lower extends Upper {
    int f;
    int self;

    int get() { return f * 2; }
    int twice() { self = f; super.self = this; return self + super.f; }
}
