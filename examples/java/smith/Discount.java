/** Smith has a Discount of his own, by the same name, and it isn't the shared one. */
public class Discount {
    public int percent() {
        return 90;
    }
}
