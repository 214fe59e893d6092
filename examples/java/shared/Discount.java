/** The shared Discount takes nothing off. */
public class Discount {
    public int percent() {
        return 0;
    }
}
