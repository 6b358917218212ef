/** A job that is refused, to show how a refusal reads: jobs have no compound assignment to an element. */
public class Refused {
    public static int run(int index) {
        int[] counts = new int[4];
        counts[index]++; // write: counts[index] = counts[index] + 1;
        return counts[index];
    }
}
