/** What every insurer's tariff can do. It is shared: one class for all. */
public class Tariff {
    public int quote(int sum) {
        return apply(sum, discount());
    }

    public Discount discount() {
        return new Discount();
    }

    public int apply(int sum, Discount discount) {
        return sum - sum / 100 * discount.percent();
    }
}
