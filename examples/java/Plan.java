/** A premium in instalments: the first one takes what doesn't divide, and each costs a fee. */
class Plan {
    int premium;
    int fee;
    int count;

    /** The first of so many instalments of 1,000 pounds, in pence. */
    int first(int count) {
        set(100_000, 150, count);
        return each() + premium % count;
    }

    /** What is paid in all. */
    int total(int count) {
        int paid = first(count);
        while (--count > 0) {
            paid += each();
        }
        return paid;
    }

    private int each() {
        return premium / count + fee;
    }

    Plan set(int pence, int fee, int count) {
        premium = pence;
        this.fee = fee;
        this.count = count;
        return this;
    }
}
