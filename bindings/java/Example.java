import static java.nio.charset.StandardCharsets.UTF_8;

import java.io.IOException;
import java.nio.ByteBuffer;
import java.security.MessageDigest;
import java.security.NoSuchAlgorithmException;
import java.util.ArrayList;
import java.util.Arrays;
import java.util.HexFormat;
import java.util.List;
import org.dabchickrug.bookie.Bookie;
import org.dabchickrug.bookie.Receipt;
import org.dabchickrug.bookie.RefusedException;
import org.dabchickrug.bookie.SessionEndedException;

/**
 * A program with the client: {@code Example COMMAND..}, the words of the server and its directory.
 *
 * <pre>
 * javac -d out bindings/java/Example.java bindings/java/org/dabchickrug/bookie/*.java
 * java -cp out Example ./bookie serve store
 * </pre>
 *
 * <p>A writer makes entries durable and crashes. Another one fences its ledger, so that the first cannot add any more, and adds
 * what is missing. Then the directory is opened again, and the ledger read.
 */
public final class Example {
    private static final long LEDGER = 1;
    private static final List<String> WRITTEN = List.of("first", "second", "third");
    private static final String MISSING = "last";

    /** Returns the SHA-256 of an entry: its ids, eight bytes each, and its content. */
    private static byte[] digestOf(long ledger, long entry, String content) {
        byte[] bytes = content.getBytes(UTF_8);
        byte[] whole = ByteBuffer.allocate(16 + bytes.length).putLong(ledger).putLong(entry).put(bytes).array();
        try {
            return MessageDigest.getInstance("SHA-256").digest(whole);
        } catch (NoSuchAlgorithmException e) {
            throw new IllegalStateException(e); // every Java has it
        }
    }

    private static Receipt addOnce(Bookie bookie, long entry, String content, boolean isRecovery) throws IOException {
        ByteBuffer bytes = UTF_8.encode(content);
        return isRecovery ? bookie.addRecovery(LEDGER, entry, bytes) : bookie.add(LEDGER, entry, bytes);
    }

    /** Adds an entry, which is in memory until a flush is answered. Returns its receipt, whose digest is that of the entry. */
    private static Receipt add(Bookie bookie, long entry, String content, boolean isRecovery) throws IOException {
        Receipt receipt;
        try {
            receipt = addOnce(bookie, entry, content, isRecovery);
        } catch (RefusedException e) {
            switch (e.status()) {
                case FULL, MEMORY -> bookie.flush();
                default -> throw e; // FENCED, DELETED: never to be added; DISK: after the device is mended
            }
            receipt = addOnce(bookie, entry, content, isRecovery);
        }
        if (receipt == null) throw new IllegalStateException("entry " + entry + " is there already");
        boolean isSame = Arrays.equals(receipt.digest(), digestOf(LEDGER, entry, content));
        if (!isSame) throw new IllegalStateException("accepted with other bytes: " + receipt);
        return receipt;
    }

    /** Makes entries durable, and ends as a crash does: what was flushed stays. */
    private static void write(List<String> command) throws IOException {
        Bookie bookie = Bookie.open(command);
        List<Receipt> receipts = new ArrayList<>();
        for (String content : WRITTEN) receipts.add(add(bookie, receipts.size(), content, false));
        System.out.println("durable " + bookie.flush()); // one flush for all of them: it waits for the device
        for (Receipt receipt : receipts) {
            boolean isSame = UTF_8.encode(WRITTEN.get((int) receipt.entryId())).equals(bookie.readBack(receipt));
            String digest = HexFormat.of().formatHex(receipt.digest(), 0, 4);
            System.out.println("receipt " + receipt.entryId() + " " + digest + " " + isSame);
        }
        bookie.kill();
    }

    /** Takes the ledger over: fences it, and adds what is missing. */
    private static void recover(List<String> command) throws IOException {
        try (Bookie bookie = Bookie.open(command)) { // `close` at the end flushes
            System.out.println("fenced " + bookie.fence(LEDGER));
            long entry = bookie.lastEntry(LEDGER) + 1;
            try {
                bookie.add(LEDGER, entry, UTF_8.encode("of the first writer"));
            } catch (RefusedException e) {
                System.out.println("refused " + e.status().text());
            }
            add(bookie, entry, MISSING, true);
            System.out.println("recovered " + entry + " " + bookie.flush());
        }
    }

    /** Reads the ledger after opening the directory again. */
    private static void read(List<String> command) throws IOException {
        try (Bookie bookie = Bookie.open(command)) {
            long[] page = bookie.entries(LEDGER, 0);
            while (page.length > 0) {
                for (long entry : page)
                    System.out.println("entry " + entry + " " + UTF_8.decode(bookie.read(LEDGER, entry)));
                page = bookie.entries(LEDGER, page[page.length - 1] + 1);
            }
            System.out.println("fenced " + bookie.isFenced(LEDGER));
        }
    }

    public static void main(String[] words) {
        List<String> command = List.of(words);
        try {
            write(command);
            recover(command);
            read(command);
            return;
        } catch (RefusedException e) {
            System.err.println("refused: " + e.getMessage()); // nothing changed, unless it is DISK; the session goes on
        } catch (SessionEndedException e) {
            System.err.println("ended: " + e.getMessage()); // requests without a reply took effect or not: open again, and read
        } catch (IOException e) {
            System.err.println("no server: " + e.getMessage());
        }
        System.exit(1);
    }
}
