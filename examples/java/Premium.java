/** A premium in pence: a base by age band, more in the city, never less than the least. */
class Premium {
    static final int LEAST = 9_000;

    int of(int age) {
        return charged(band(age), age % 2 == 0);
    }

    /** Per mille of the base, by age. */
    int band(int age) {
        if (age < 18) {
            return 0;
        } else if (age <= 25) {
            return 1_800;
        } else if (age <= 60) {
            return 1_000;
        }
        return 1_350;
    }

    int charged(int perMille, boolean city) {
        int premium = 12_000 * perMille / 1_000;
        if (city && perMille > 0) {
            premium += premium / 10;
        }
        return premium < LEAST ? LEAST : premium;
    }
}
