class Loops {
    int of(int x) {
        int n = x % 13;
        int sum = 0;
        outer:
        for (int i = 0; i <= n; i++) {
            for (int j = i; ; j--) {
                if (j < -1) {
                    continue outer;
                }
                sum += i * j;
                if (sum > 200) {
                    break outer;
                }
            }
        }
        do {
            sum -= 3;
        } while (sum > 50 && sum != 60);
        while (true) {
            if (sum >= 0) {
                break;
            }
            sum = sum + n + 14;
        }
        return sum;
    }
}
