package org.dabchickrug.bookie;

import java.io.IOException;
import java.nio.ByteBuffer;
import java.security.MessageDigest;
import java.util.ArrayList;
import java.util.HexFormat;
import java.util.List;
import java.util.PrimitiveIterator;
import java.util.concurrent.CompletableFuture;

/**
 * Tests the client: usage: TestBookie SERVER DIR. Prints the summary that the tests of all clients print, line for line. DIR and
 * DIR-ends do not exist or are empty.
 */
public final class TestBookie {
    /** Entries of each of two ledgers. */
    private static final int COUNT = 2000;
    /** Large entries that are added, and as many again while they are read. */
    private static final int LARGE = 5;
    /** Of ten entries of a log so many are of a ledger that is not deleted. */
    private static final int[] LIVE = {0, 1, 1, 5, 6, 9};
    static final ByteBuffer X = ByteBuffer.wrap(new byte[] {'x'});

    private TestBookie() {}

    interface Asking {
        Object ask() throws IOException;
    }

    private static byte[] content(long ledgerId, long entryId) {
        byte[] bytes = new byte[20 + (int) (entryId % 100)];
        for (int i = 0; i < bytes.length; i++) bytes[i] = (byte) (ledgerId * 31 + entryId * 7 + i);
        return bytes;
    }

    private static ByteBuffer buffer(long ledgerId, long entryId) {
        return ByteBuffer.wrap(content(ledgerId, entryId));
    }

    private static ByteBuffer large(int entryId) {
        byte[] bytes = new byte[300_000];
        for (int i = 0; i < bytes.length; i++) bytes[i] = (byte) (4 * 31 + entryId * 7 + i);
        return ByteBuffer.wrap(bytes);
    }

    /** Large adds and large reads at once, all sent ahead: neither side may wait for the other. */
    private static void largeEntries(Bookie bookie) throws IOException {
        List<CompletableFuture<Reply>> added = new ArrayList<>(), sent = new ArrayList<>();
        for (int e = 0; e < LARGE; e++) added.add(bookie.sendAdd(4, e, large(e)));
        for (CompletableFuture<Reply> future : added) Bookie.await(future);
        for (int e = 0; e < LARGE; e++) {
            sent.add(bookie.send(Call.READ, ByteBuffer.allocate(0), 4, e));
            added.add(bookie.sendAdd(4, LARGE + e, large(LARGE + e)));
        }
        MessageDigest digest = sha256();
        for (CompletableFuture<Reply> future : sent) digest.update(Bookie.await(future).bytes());
        int count = 0;
        for (CompletableFuture<Reply> future : added) count += Bookie.await(future).status() == Status.ACCEPTED ? 1 : 0;
        print("large", count, HexFormat.of().formatHex(digest.digest()));
        bookie.delete(4);
    }

    private static byte[] whole(long ledgerId, long entryId, ByteBuffer content) {
        ByteBuffer entry = ByteBuffer.allocate(16 + content.remaining());
        return entry.putLong(ledgerId).putLong(entryId).put(content.duplicate()).array();
    }

    private static MessageDigest sha256() {
        try {
            return MessageDigest.getInstance("SHA-256");
        } catch (java.security.NoSuchAlgorithmException e) {
            throw new AssertionError(e);
        }
    }

    static void print(Object... words) {
        StringBuilder line = new StringBuilder();
        for (Object word : words) {
            if (line.length() > 0) line.append(' ');
            line.append(word instanceof Boolean is ? (is ? "yes" : "no") : word == null ? "none" : word.toString());
        }
        System.out.println(line);
    }

    /** Returns the name of the refusal of a call, or {@code accepted}. */
    static String refusal(Asking asking) throws IOException {
        try {
            asking.ask();
            return "accepted";
        } catch (RefusedException e) {
            return e.status().text();
        }
    }

    private static boolean has(ByteBuffer found, long ledgerId, long entryId) {
        return found != null && found.equals(buffer(ledgerId, entryId));
    }

    private static String hex(ByteBuffer bytes) {
        if (bytes == null) return "none";
        byte[] copy = new byte[bytes.remaining()];
        bytes.duplicate().get(copy);
        return HexFormat.of().formatHex(copy);
    }

    private static void opened(Bookie bookie) {
        print("opened", bookie.version());
    }

    /** Returns the entry ids of a ledger. */
    static List<Long> all(Bookie bookie, long ledgerId) throws IOException {
        List<Long> ids = new ArrayList<>();
        for (long[] page = bookie.entries(ledgerId, 0); page.length > 0; page = bookie.entries(ledgerId, page[page.length - 1] + 1))
            for (long id : page) ids.add(id);
        return ids;
    }

    /** Returns the receipt of an add that was sent; adds again after a flush as long as the cache is full. */
    private static Receipt accepted(Bookie bookie, CompletableFuture<Reply> future, long ledgerId, long entryId) throws IOException {
        while (true) {
            try {
                return Bookie.receipt(ledgerId, entryId, Bookie.await(future));
            } catch (RefusedException e) {
                if (e.status() != Status.FULL) throw e;
                bookie.flush();
                future = bookie.sendAdd(ledgerId, entryId, buffer(ledgerId, entryId));
            }
        }
    }

    private static void addLedger(Bookie bookie, long ledgerId, List<Receipt> receipts) {
        try {
            List<CompletableFuture<Reply>> sent = new ArrayList<>();
            for (long e = 0; e < COUNT; e++) sent.add(bookie.sendAdd(ledgerId, e, buffer(ledgerId, e)));
            for (int e = 0; e < COUNT; e++) receipts.add(accepted(bookie, sent.get(e), ledgerId, e));
        } catch (IOException e) {
            throw new java.io.UncheckedIOException(e);
        }
    }

    private static List<Receipt> addAll(Bookie bookie) throws InterruptedException {
        List<List<Receipt>> given = List.of(new ArrayList<>(), new ArrayList<>());
        Thread[] threads = new Thread[2];
        for (int t = 0; t < 2; t++) {
            int ledger = t + 1;
            threads[t] = new Thread(() -> addLedger(bookie, ledger, given.get(ledger - 1)));
            threads[t].start();
        }
        for (Thread thread : threads) thread.join();
        int count = 0, right = 0;
        boolean isRising = true;
        for (List<Receipt> receipts : given) {
            long last = -1;
            for (Receipt r : receipts) {
                byte[] digest = sha256().digest(whole(r.ledgerId(), r.entryId(), buffer(r.ledgerId(), r.entryId())));
                count += 1;
                right += MessageDigest.isEqual(digest, r.digest()) ? 1 : 0;
                isRising &= r.number() > last;
                last = r.number();
            }
        }
        print("added", count, "digests", right, isRising ? "rising" : "not rising");
        return given.get(1);
    }

    /** Returns how many entries the ledgers have, and the SHA-256 of all of them in order. */
    private static String readAll(Bookie bookie, long... ledgers) throws IOException {
        MessageDigest digest = sha256();
        int count = 0;
        for (long ledgerId : ledgers) {
            List<CompletableFuture<Reply>> sent = new ArrayList<>();
            for (long e : all(bookie, ledgerId)) sent.add(bookie.send(Call.READ, ByteBuffer.allocate(0), ledgerId, e));
            for (CompletableFuture<Reply> future : sent) {
                Reply reply = Bookie.await(future);
                digest.update(whole(reply.numbers()[0], reply.numbers()[1], reply.bytes()));
                count += 1;
            }
        }
        return count + " " + HexFormat.of().formatHex(digest.digest());
    }

    private static String ledgers(Bookie bookie) throws IOException {
        StringBuilder ids = new StringBuilder();
        for (long id : bookie.ledgers(0)) ids.append(ids.length() == 0 ? "" : " ").append(id);
        return ids.toString();
    }

    private static void lists(Bookie bookie) throws IOException {
        print("last", bookie.lastEntry(1), bookie.lastEntry(2), bookie.lastEntry(9) < 0 ? null : "some");
        print("ledgers", ledgers(bookie));
        Reply last = bookie.readLast(1);
        print("read last", last.numbers()[1] == COUNT - 1 && has(last.bytes(), 1, COUNT - 1));
    }

    private static void attributes(Bookie bookie) throws IOException {
        byte[] key = new byte[20];
        for (int i = 0; i < 20; i++) key[i] = (byte) i;
        bookie.setMasterKey(1, ByteBuffer.wrap(key));
        bookie.setExplicitLac(1, ByteBuffer.allocate(8).putLong(0, 4999));
        print("attributes", hex(bookie.masterKey(1)), hex(bookie.explicitLac(1)), hex(bookie.masterKey(2)));
        print("is fenced", bookie.isFenced(1), bookie.isFenced(3));
    }

    private static void figures(Bookie bookie) throws IOException {
        Figures found = bookie.stats();
        boolean within = found.live() <= found.bytes() && found.durable() <= found.front();
        print("figures", found.front(), found.cached(), found.indexed(), within, found.leases(), found.failures());
    }

    /** Seals logs of ten entries of 20 bytes, some of ledger 5 and the others of ledger 6. */
    private static void fillLogs(Bookie bookie) throws IOException {
        for (int log = 0; log < LIVE.length; log++) {
            for (int e = 0; e < 10; e++) bookie.add(e < LIVE[log] ? 5 : 6, 100L * log + e, buffer(5, 100L * log));
            bookie.seal();
        }
    }

    private static String compacted(Bookie bookie, long minor, long major) throws IOException {
        Compacted done = bookie.compact(minor, major);
        return done.logs() + " " + done.entries();
    }

    /** Each threshold takes the logs below it, 0 takes none, and entries are read from the copies. */
    private static void compactions(Bookie bookie) throws IOException {
        bookie.seal();
        print("compact", compacted(bookie, 200, 800));
        fillLogs(bookie);
        bookie.delete(6);
        Figures before = bookie.stats();
        print("omitted", compacted(bookie, 0, 0));
        print("minor", compacted(bookie, 200, 0), "again", compacted(bookie, 200, 0));
        print("major", compacted(bookie, 0, 800), "again", compacted(bookie, 0, 800));
        Figures after = bookie.stats();
        print("freed", before.logs() - after.logs(), before.bytes() - after.bytes(), "live", before.live(), after.live());
        print(
                "thresholds",
                refusal(() -> bookie.compact(800, 200)),
                refusal(() -> bookie.compact(2000, 0)),
                refusal(() -> bookie.compact(0, 200)));
        int right = 0;
        for (long e : all(bookie, 5)) right += has(bookie.read(5, e), 5, e - e % 10) ? 1 : 0;
        print("copied", right);
    }

    private static void firstSession(Bookie bookie) throws IOException, InterruptedException {
        opened(bookie);
        Receipt receipt = addAll(bookie).get(77);
        bookie.flush();
        print("read", readAll(bookie, 1, 2));
        lists(bookie);
        print("holds", bookie.holds(1, COUNT - 1), bookie.holds(1, COUNT), bookie.holds(9, 0));
        print("read back", has(bookie.readBack(receipt), 2, 77));
        print("forged", refusal(() -> bookie.readBack(new Receipt(receipt.number(), 2, 78, receipt.digest()))));
        print("again", bookie.add(1, 0, X), has(bookie.read(1, 0), 1, 0), bookie.read(9, 0));
        print("fenced", bookie.fence(1), bookie.fence(1));
        print("add", refusal(() -> bookie.add(1, COUNT, X)), "recovery", refusal(() -> bookie.addRecovery(1, COUNT, X)));
        print("negative", refusal(() -> bookie.add(Long.MIN_VALUE, 0, X)));
        attributes(bookie);
        figures(bookie);
        print("deleted", bookie.delete(2), refusal(() -> bookie.delete(2)), refusal(() -> bookie.read(2, 0)), refusal(() -> bookie.add(2, 0, X)));
        print("holds", bookie.holds(2, 0));
        compactions(bookie);
        largeEntries(bookie);
        print("durable", bookie.checkpoint() > 2 * COUNT);
        bookie.seal();
    }

    /** Adds to ledger 3, flushes after a thousand, and kills the server amid a thousand more. */
    private static void killedSession(Bookie bookie) throws IOException {
        for (long e = 0; e < 1000; e++) bookie.add(3, e, buffer(3, e));
        bookie.flush();
        List<CompletableFuture<Reply>> sent = new ArrayList<>();
        for (long e = 1000; e < 2000; e++) sent.add(bookie.sendAdd(3, e, buffer(3, e)));
        Bookie.await(sent.get(300));
        bookie.kill();
        for (CompletableFuture<Reply> future : sent) {
            try {
                Bookie.await(future);
            } catch (SessionEndedException e) {
                // Not answered before the end.
            }
        }
        try {
            bookie.flush();
        } catch (SessionEndedException e) {
            print("killed: later calls are refused");
        }
    }

    private static void lastSession(Bookie bookie) throws IOException {
        opened(bookie);
        print("read", readAll(bookie, 1, 5));
        String key = hex(bookie.masterKey(1)), lac = hex(bookie.explicitLac(1));
        print("fenced", bookie.isFenced(1), refusal(() -> bookie.read(2, 0)), key, lac);
        List<Long> found = all(bookie, 3);
        boolean isPublished = found.size() >= 1000, isRight = true;
        for (int e = 0; isPublished && e < 1000; e++) isPublished = found.get(e) == e;
        for (long e : found) isRight &= has(bookie.read(3, e), 3, e);
        print("published", isPublished, "right", isRight);
        bookie.close();
        bookie.close();
        print("closed", bookie.exitStatus(), bookie.exitStatus());
    }

    /** The same directory once more, in the form of BookKeeper's interface. Prints nothing if all is right. */
    private static void asLedgerStorage(List<String> command) throws IOException {
        try (BookieLedgerStorage storage = new BookieLedgerStorage(command)) {
            ByteBuffer entry = ByteBuffer.allocate(32).putLong(7).putLong(0).putLong(-1).putLong(5).flip();
            check(storage.addEntry(entry) == 0 && entry.remaining() == 32);
            check(storage.getEntry(7, 0).equals(entry) && storage.getEntry(7, -1).equals(entry));
            check(storage.getLastAddConfirmed(7) == -1);
            check(storage.entryExists(7, 0) && !storage.entryExists(7, 1));
            check(storage.ledgerExists(7) && !storage.ledgerExists(8) && !storage.ledgerExists(2));
            check(storage.setFenced(7) && !storage.setFenced(7) && storage.isFenced(7));
            storage.setMasterKey(7, new byte[] {1, 2});
            check(storage.readMasterKey(7).length == 2 && storage.getExplicitLac(7) == null);
            PrimitiveIterator.OfLong ids = storage.getActiveLedgersInRange(2, 8);
            check(ids.nextLong() == 3 && ids.nextLong() == 5 && ids.nextLong() == 7 && !ids.hasNext());
            ids = storage.getListOfEntriesOfLedger(1);
            for (long e = 0; e <= COUNT; e++) check(ids.nextLong() == e);
            check(!ids.hasNext());
            storage.deleteLedger(7);
            storage.deleteLedger(7);
            check(refusal(() -> storage.readMasterKey(7)).equals("deleted") && refusal(() -> storage.getEntry(7, 0)).equals("deleted"));
            check(storage.checkpoint() > 0);
            try {
                storage.getEntry(1, 1 << 20);
                check(false);
            } catch (BookieLedgerStorage.NotFoundException e) {
                storage.forceGC(800, 200);
                check(refusal(() -> force(storage, 200, 800)).equals("out_of_range"));
            }
        }
    }

    private static Object force(BookieLedgerStorage storage, long major, long minor) throws IOException {
        storage.forceGC(major, minor);
        return null;
    }

    /** Records print what they have. Prints nothing if all is right. */
    private static void asText() {
        Receipt receipt = new Receipt(1, 2, 3, new byte[] {(byte) 0xab});
        check(receipt.toString().equals("Receipt[number=1, ledgerId=2, entryId=3, digest=ab]"));
        check(receipt.equals(new Receipt(1, 2, 3, new byte[] {(byte) 0xab})));
        Reply reply = new Reply(Status.FLUSHED, new long[] {7}, ByteBuffer.allocate(0));
        check(reply.toString().equals("Reply[status=flushed, numbers=[7], bytes=0]"));
        check(reply.hashCode() == new Reply(Status.FLUSHED, new long[] {7}, ByteBuffer.allocate(0)).hashCode());
    }

    static void check(boolean is) {
        if (!is) throw new AssertionError();
    }

    public static void main(String[] args) throws Exception {
        List<String> command = List.of(args[0], args[1]);
        try (Bookie bookie = Bookie.open(command)) {
            firstSession(bookie);
        }
        killedSession(Bookie.open(command));
        lastSession(Bookie.open(command));
        asLedgerStorage(command);
        asText();
        new TestEnds(List.of(args[0], args[1] + "-ends")).ends();
    }
}
