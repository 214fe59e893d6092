/** Brown's tariff overrides what a discount is. */
public class BrownTariff extends Tariff {
    public Discount discount() {
        return new BrownDiscount();
    }
}

class BrownDiscount extends Discount {
    public int percent() {
        return 15;
    }
}
