import java.util.concurrent.ConcurrentHashMap;

public class Shop {
    static final ConcurrentHashMap<String, Integer> stock = new ConcurrentHashMap<>();

    static void sell() {
        Integer left = stock.get("apples");     // look ..
        if (left > 0) stock.put("apples", left - 1);   // .. then put
    }

    public static void main(String[] words) throws InterruptedException {
        stock.put("apples", 10);
        Thread[] clerks = {new Thread(Shop::sell), new Thread(Shop::sell)};
        for (Thread clerk : clerks) clerk.start();
        for (Thread clerk : clerks) clerk.join();
    }
}
