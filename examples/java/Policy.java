/** A motor policy with a no-claims bonus: years without a claim, and what they take off. */
class Policy {
    Record record;

    /** The premium after so many years, in the last of which there was a claim if they are odd. */
    int after(int years) {
        record = new Record();
        for (int year = 1; year <= years; year++) {
            record.year(year == years && years % 2 != 0);
        }
        return 50_000 - 50_000 / 100 * record.bonus();
    }
}

class Record {
    int free;

    /** A claim costs three years. */
    void year(boolean claim) {
        free = claim ? free - 3 : free + 1;
        if (free < 0) {
            free = 0;
        }
    }

    /** Percent. */
    int bonus() {
        switch (free) {
            case 0:
                return 0;
            case 1:
                return 20;
            case 2:
                return 30;
            case 3:
            case 4:
                return 40;
            default:
                return 60;
        }
    }
}
