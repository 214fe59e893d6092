class Divides {
    int of(int x) {
        int d = x / 7 + x % 7 * 10 + x / -3 + x % -3 * 100 + -x / 2;
        d += Integer.MIN_VALUE / (x < 0 ? -1 : 1) + Integer.MIN_VALUE % (x < 0 ? -1 : 2);
        int by = x - 12;
        return d + 1000 / by + 1000 % by + (x * 3 + 1) % (by * 2) + 5 % (x > 0 ? this.three() : x);
    }

    int three() {
        return 3;
    }
}
