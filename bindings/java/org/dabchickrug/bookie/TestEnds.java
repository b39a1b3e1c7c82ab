package org.dabchickrug.bookie;

import java.io.BufferedReader;
import java.io.File;
import java.io.IOException;
import java.nio.file.Files;
import java.nio.file.Path;
import java.time.Duration;
import java.util.ArrayList;
import java.util.List;
import java.util.concurrent.CompletableFuture;
import java.util.concurrent.TimeUnit;

/**
 * Tests other ends of a session than {@code close}, for {@link TestBookie}. It runs itself with
 * further words, ROLE and LEDGER, as
 * a program that gets a signal or has no standard streams. Needs {@code setsid}.
 */
final class TestEnds {
    /** Entries of a session. */
    private static final int FEW = 100;
    /** Limit on a program that is run, and on waiting for a predecessor. */
    private static final int SECONDS = 60;

    private final List<String> command;

    TestEnds(List<String> command) {
        this.command = command;
    }

    private static List<CompletableFuture<Reply>> send(Bookie bookie, long ledgerId) {
        List<CompletableFuture<Reply>> sent = new ArrayList<>();
        for (int e = 0; e < FEW; e++) sent.add(bookie.sendAdd(ledgerId, e, TestBookie.X));
        return sent;
    }

    private static void addFew(Bookie bookie, long ledgerId) throws IOException {
        for (CompletableFuture<Reply> future : send(bookie, ledgerId)) Bookie.await(future);
    }

    /**
     * Returns how many entries of a ledger a new session finds. It waits for a predecessor that
     * still flushes.
     */
    private int found(long ledgerId) throws IOException {
        try (Bookie bookie = Bookie.open(command)) {
            return TestBookie.all(bookie, ledgerId).size();
        }
    }

    /**
     * Adds more entries after a flush, or none. The server is killed, not by the client. Returns
     * how many entries {@code close} says
     * may be lost.
     */
    private Object died(long ledgerId, boolean isFlushed, int more) throws IOException {
        Bookie bookie = Bookie.open(command);
        addFew(bookie, ledgerId);
        if (isFlushed) bookie.flush();
        for (int e = 0; e < more; e++) bookie.add(ledgerId, FEW + e, TestBookie.X);
        ProcessHandle.of(bookie.pid()).orElseThrow().destroyForcibly();
        try {
            bookie.close();
            return "silent";
        } catch (SessionEndedException e) {
            TestBookie.check(e.getMessage().endsWith(": " + bookie.unflushed()));
            return bookie.unflushed();
        }
    }

    /** The words that run this class in a role. */
    private List<String> role(String role, long ledgerId) {
        String java = new File(System.getProperty("java.home"), "bin/java").getPath();
        String path = System.getProperty("java.class.path");
        List<String> words = new ArrayList<>(List.of(java, "-cp", path, TestEnds.class.getName()));
        words.addAll(command);
        words.addAll(List.of(role, Long.toString(ledgerId)));
        return words;
    }

    private static int status(Process process) throws InterruptedException {
        TestBookie.check(process.waitFor(SECONDS, TimeUnit.SECONDS));
        return process.exitValue();
    }

    /**
     * Sends a signal to the process group of a program with a session. Returns how many of its
     * entries are found.
     */
    private int signalled(String role, long ledgerId, int number)
            throws IOException, InterruptedException {
        List<String> words = role(role, ledgerId);
        words.add(0, "setsid");
        ProcessBuilder builder = new ProcessBuilder(words);
        Process child = builder.redirectError(ProcessBuilder.Redirect.INHERIT).start();
        try (BufferedReader out = child.inputReader()) {
            TestBookie.check("ready".equals(out.readLine()));
            String kill = "kill -" + number + " -" + child.pid();
            new ProcessBuilder("/bin/sh", "-c", kill).start().waitFor();
            TestBookie.check(status(child) == 128 + number);
        }
        return found(ledgerId);
    }

    /** Adds entries, and waits for a signal, after which the hook closes in order. */
    private void playSignalled(long ledgerId) throws IOException, InterruptedException {
        Bookie bookie = Bookie.open(command);
        addFew(bookie, ledgerId);
        Runtime.getRuntime().addShutdownHook(new Thread(() -> {
            try {
                bookie.close();
            } catch (IOException e) {
                Runtime.getRuntime().halt(3);
            }
        }));
        System.out.println("ready");
        Thread.sleep(1000 * SECONDS);
    }

    /** Adds an entry. The server's error stream is no file of the directory. */
    private void playClosed(long ledgerId) throws IOException {
        try (Bookie bookie = Bookie.open(command)) {
            bookie.add(ledgerId, 0, TestBookie.X);
            Path errors = Path.of("/proc/" + bookie.pid() + "/fd/2");
            boolean canSee = Files.exists(Path.of("/proc/self/fd"));
            Path none = Path.of("/dev/null");
            TestBookie.check(!canSee || Files.readSymbolicLink(errors).equals(none));
        }
    }

    /**
     * Runs a program without standard input, output and errors. Returns how many of its entries are
     * found.
     */
    private int withoutStreams(long ledgerId) throws IOException, InterruptedException {
        List<String> words = role("closed", ledgerId);
        words.addAll(0, List.of("/bin/sh", "-c", "exec \"$@\" <&- >&- 2>&-", "sh"));
        TestBookie.check(status(new ProcessBuilder(words).start()) == 0);
        return found(ledgerId);
    }

    /**
     * Cancels requests that were sent. Returns how many of their entries are found by a later call.
     */
    private int cancelled(long ledgerId) throws IOException {
        try (Bookie bookie = Bookie.open(command)) {
            for (CompletableFuture<Reply> future : send(bookie, ledgerId)) future.cancel(true);
            return TestBookie.all(bookie, ledgerId).size();
        }
    }

    /** Opens the directory while a predecessor has it, without and with time. */
    private String succeed(long ledgerId) throws Exception {
        Bookie first = Bookie.open(command);
        addFew(first, ledgerId);
        long start = System.nanoTime();
        String refused = TestBookie.refusal(() -> Bookie.open(command, Duration.ZERO));
        // So the next opening is refused at first.
        long later = 300 + 2 * (System.nanoTime() - start) / 1_000_000;
        CompletableFuture<Void> end = CompletableFuture.runAsync(
                () -> {
                    try {
                        first.close();
                    } catch (IOException e) {
                        throw new java.io.UncheckedIOException(e);
                    }
                },
                CompletableFuture.delayedExecutor(later, TimeUnit.MILLISECONDS));
        try (Bookie second = Bookie.open(command, Duration.ofSeconds(SECONDS))) {
            int count = TestBookie.all(second, ledgerId).size();
            end.get();
            return refused + " " + count;
        }
    }

    /** A program that is not there is named. */
    private static boolean isAbsentNamed() {
        try {
            Bookie.open(List.of("/no/such/server")).kill();
            return false;
        } catch (IOException e) {
            return e.getMessage().equals("cannot run /no/such/server");
        }
    }

    void ends() throws Exception {
        TestBookie.print("died", died(11, false, 0), died(12, true, 0), died(20, true, 30));
        int interrupt = signalled("signalled", 13, 2), terminate = signalled("signalled", 14, 15);
        TestBookie.print("signals", interrupt, terminate, signalled("signalled", 15, 1));
        TestBookie.print("cancelled", cancelled(16));
        TestBookie.print("without streams", withoutStreams(17));
        TestBookie.print("successor", succeed(18));
        TestBookie.check(signalled("without setsid", 19, 2) == FEW);
        TestBookie.check(isAbsentNamed());
    }

    public static void main(String[] args) throws Exception {
        TestEnds it = new TestEnds(List.of(args[0], args[1]));
        if (args[2].equals("without setsid")) Bookie.setsid = null;
        if (args[2].equals("closed")) it.playClosed(Long.parseLong(args[3]));
        else it.playSignalled(Long.parseLong(args[3]));
    }
}
