/** What the machine is measured on: a sieve, a linked list, a sort and calls, each for as many rounds as asked. */
public class Bench {
    public static int sieve(int rounds) {
        int[] composite = new int[2000];
        int primes = 0;
        for (int round = 0; round < rounds; round++) {
            for (int i = 0; i < composite.length; i++) {
                composite[i] = 0;
            }
            primes = 0;
            for (int i = 2; i < composite.length; i++) {
                if (composite[i] == 0) {
                    primes++;
                    for (int k = i + i; k < composite.length; k += i) {
                        composite[k] = 1;
                    }
                }
            }
        }
        return primes;
    }

    public static int list(int rounds) {
        Link first = null;
        for (int i = 0; i < 1000; i++) {
            Link link = new Link(i);
            link.next = first;
            first = link;
        }
        int sum = 0;
        for (int round = 0; round < rounds; round++) {
            Link reversed = null;
            while (first != null) {
                Link next = first.next;
                first.next = reversed;
                reversed = first;
                first = next;
            }
            first = reversed;
            for (Link link = first; link != null; link = link.next) {
                sum += link.value;
            }
        }
        return sum;
    }

    public static int sort(int rounds) {
        int[] numbers = new int[500];
        int seed = 1;
        for (int round = 0; round < rounds; round++) {
            for (int i = 0; i < numbers.length; i++) {
                seed = seed * 1103515245 + 12345;
                numbers[i] = seed >>> 8;
            }
            for (int gap = numbers.length / 2; gap > 0; gap /= 2) {
                for (int i = gap; i < numbers.length; i++) {
                    int number = numbers[i];
                    int k = i;
                    while (k >= gap && numbers[k - gap] > number) {
                        numbers[k] = numbers[k - gap];
                        k -= gap;
                    }
                    numbers[k] = number;
                }
            }
        }
        return numbers[250];
    }

    public static int calls(int rounds) {
        int sum = 0;
        for (int round = 0; round < rounds; round++) {
            sum += fibonacci(20);
        }
        return sum;
    }

    public static int fibonacci(int n) {
        if (n < 2) {
            return n;
        }
        return fibonacci(n - 1) + fibonacci(n - 2);
    }

    public static int virtual(int rounds) {
        Link one = new Link(1);
        Link two = new Doubled(1);
        int sum = 0;
        for (int round = 0; round < rounds; round++) {
            sum += one.weight() + two.weight();
        }
        return sum;
    }
}

class Link {
    public int value;
    public Link next;

    public Link(int value) {
        this.value = value;
    }

    public int weight() {
        return value;
    }
}

class Doubled extends Link {
    public Doubled(int value) {
        super(value);
    }

    public int weight() {
        return value + value;
    }
}
