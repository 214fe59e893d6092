class Switches {
    int of(int x) {
        return dense(x) + sparse(x) * 10 + falls(x % 5) * 1000 + empty(x) + arrows(x % 6) * 7;
    }

    int dense(int x) {
        switch (x) {
            case -1: return 4;
            case 0: return 5;
            case 1: return 6;
            case 2: case 3: case 4: case 5: case 6: return 7;
            case 7: return 8;
            case 8: return 5;
            default: return 9;
        }
    }

    int sparse(int x) {
        int r = 0;
        switch (x + 0) {
            case Integer.MIN_VALUE: r = 1; break;
            case -100_000: r = 2; break;
            case 25: r = 3; break;
            case 1_000_003: r = 4; break;
            case Integer.MAX_VALUE: r = 5; break;
        }
        return r;
    }

    int falls(int x) {
        int r = 1;
        switch (x) {
            case 1: r += 1;
            case 2: r *= 3;
            default: r -= 4;
            case 4: r *= 5;
        }
        return r;
    }

    int empty(int x) {
        switch (x) {
            default:
        }
        return 2;
    }

    int arrows(int x) {
        return switch (x) {
            case 0, 1 -> 10;
            case 2 -> { int y = x * 3; yield y + 1; }
            case 3 -> x > 2 ? 5 : 6;
            default -> -x;
        };
    }
}
