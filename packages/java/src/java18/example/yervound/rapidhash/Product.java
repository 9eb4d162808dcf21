package example.yervound.rapidhash;

/** The high half of a product, by the function that JDK 18 added. */
final class Product {
    private Product() {}

    /** Returns the high half of the product of two unsigned words. */
    static long high(long a, long b) {
        return Math.unsignedMultiplyHigh(a, b);
    }
}
