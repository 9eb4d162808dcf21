package example.yervound.rapidhash;

/** The high half of a product. The file of src/java18 replaces this class in JDK 18 and later. */
final class Product {
    private Product() {}

    /** Returns the high half of the product of two unsigned words. */
    static long high(long a, long b) {
        return Math.multiplyHigh(a, b) + ((a >> 63) & b) + ((b >> 63) & a);
    }
}
