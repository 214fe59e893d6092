/** Assignments and increments within sums, of locals and fields. */
class Increments {
    int f;
    Increments other;

    int of(int x) {
        other = new Increments();
        int i = x;
        int sum = i++ + ++i * 2 - i-- + --i;
        sum += f++ + ++f + (other.f = 5) + other.f-- + (f += 7);
        return sum * 31 + more(sum) + pick(f++ > 3 ? f++ : --f, f);
    }

    int more(int sum) {
        int i;
        int a = other.f = f = sum % 1000;
        sum += a * (i = 3) + i * (a -= 2) + (other.other = this).f++;
        other.f += other.f++ * 2;
        i += 100_000;
        i -= 40_000;
        return sum + other.f + i;
    }

    int pick(int a, int b) {
        return a > b ? a : b;
    }
}
