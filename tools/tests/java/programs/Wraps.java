/** Ints wrap, division goes toward zero, and the least int divided by -1 is itself. */
class Wraps {
    int of(int x) {
        int sum = x + Integer.MAX_VALUE;
        sum = sum * 31 - Integer.MIN_VALUE;
        sum += x * x * x + -x;
        return sum;
    }
}
