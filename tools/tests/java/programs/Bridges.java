/** An abstract-like class above, an override with a narrower result, methods of 0 to 4 arguments, and one that gives nothing back. */
class Bridges {
    int log;

    int of(int x) {
        Maker maker = x < 0 ? new Maker() : new FineMaker();
        Part part = maker.make(x);
        note(part.worth());
        note(maker.make(x + 1).worth(), 2);
        new FineMaker().make(3).polish();
        return log + part.worth(1, part, 3, part);
    }

    void note(int x) {
        if (x == 12) return;
        log += x;
    }

    void note(int x, int times) { for (; times > 0; times--) note(x); }
}

class Part {
    int value;
    int worth() { return value; }
    int worth(int a, Part p, int b, Part q) { return a * p.worth() + b * q.value; }
}

class FinePart extends Part {
    int worth() { return value * 3; }
    void polish() { value++; }
}

class Maker {
    Part make(int x) { Part p = new Part(); p.value = x; return p; }
}

class FineMaker extends Maker {
    FinePart make(int x) { FinePart p = new FinePart(); p.value = x; p.polish(); return p; }
}
