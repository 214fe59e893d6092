/** Smith's tariff overrides a method of the shared one, and means his own Discount by it. */
public class SmithTariff extends Tariff {
    public Discount discount() {
        return new Discount();
    }
}
