class Limits {
    int a, b, c, d, e, f, g, h, i;

    int m1(int x) { return x; }
    int m2(int x) { return x; }
    int m3(int x) { return x; }
    int m4(int x) { return x; }
    int m5(int x) { return x; }
    int m6(int x) { return x; }
    int m7(int x) { return x; }
    int m8(int x) { return x; }

    int locals(int x) {
        int p = x + 1, q = p + 2, r = q * 3, s = r - p, t = s + q, u = t * r, v = u - s;
        return p + q + r + s + t + u + v;
    }
}

class Spare {
    int f(int a, int b, int c, int d) {
        int e = a + b;
        int g = c + d;
        int h = e + g;
        return (two(a + b, c) > two(c, d) ? a : b) + e + g + h + c + d;
    }

    int two(int x, int y) { return x; }
}

class Deep {
    int g(int x) {
        return x + (x + (x + (x + (x + (x + (x + (x + (x + (x + (x + (x + (x + (x + (x + (x + (x + 1))))))))))))))));
    }
}

class Long {
    int a;

    int h(int x) {
        a += x * 3 + a; a += x * 4 + a; a += x * 5 + a; a += x * 6 + a; a += x * 7 + a;
        a += x * 3 + a; a += x * 4 + a; a += x * 5 + a; a += x * 6 + a; a += x * 7 + a;
        a += x * 3 + a; a += x * 4 + a; a += x * 5 + a; a += x * 6 + a; a += x * 7 + a;
        a += x * 3 + a; a += x * 4 + a; a += x * 5 + a; a += x * 6 + a; a += x * 7 + a;
        return a;
    }
}

class Upper { int a, b, c, d, e, f, g, h; }

class Lower extends Upper { int i, j, k, l, m, n, o, p; }

class Lowest extends Lower { int q; }
