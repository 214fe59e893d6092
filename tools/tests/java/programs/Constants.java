class Constants {
    static final int RATE = 1_234_567;
    static final boolean ON = true;

    int of(int x) {
        int sum = 0x7FFFFFFF + x;
        sum = sum * 65_536 + 32_768 - -32_769 + 'a';
        sum += RATE - 2_000_000_011 + 1_073_741_824 - 1_073_741_825;
        return ON ? sum : -sum;
    }
}
