/**
 * A small job: makes a number of invoices, adds up what is paid, and counts the
 * ones that cannot be split into instalments.
 *
 * Invoices.run(n) returns the total in cents of n invoices after discounts.
 * Invoices.failures(n) returns how many of them have no instalments.
 */
public class Invoices {
    public Invoice[] all;
    public int failures;

    public Invoices(int count) {
        all = new Invoice[count];
        for (int i = 0; i < all.length; i++) {
            all[i] = new Invoice(i + 1, 1250 + 75 * i, i % 4);
        }
    }

    /** The entry: all parameters of an entry are int. */
    public static int run(int count) {
        return new Invoices(count).total();
    }

    public static int failures(int count) {
        Invoices invoices = new Invoices(count);
        invoices.total();
        return invoices.failures;
    }

    public int total() {
        int sum = 0;
        for (int i = 0; i < all.length; i++) {
            Invoice invoice = all[i];
            try {
                // Rounding down to equal instalments loses up to a few cents.
                sum = sum + invoice.instalment() * invoice.instalments;
            } catch (ArithmeticException noInstalments) {
                failures = failures + 1;
                sum = sum + invoice.amount();
            }
        }
        return sum;
    }

    public static class Invoice {
        public int quantity;
        public int cents;
        public int instalments;

        public Invoice(int quantity, int cents, int instalments) {
            this.quantity = quantity;
            this.cents = cents;
            this.instalments = instalments;
        }

        /** Ten or more of a thing are five per cent cheaper. */
        public int amount() {
            int full = quantity * cents;
            if (quantity >= 10) {
                return full - full * 5 / 100;
            }
            return full;
        }

        /** Throws an ArithmeticException where there are no instalments. */
        public int instalment() {
            return amount() / instalments;
        }
    }
}
