package org.dabchickrug.bookie;

import java.io.BufferedInputStream;
import java.io.DataInputStream;
import java.io.File;
import java.io.IOException;
import java.io.OutputStream;
import java.nio.ByteBuffer;
import java.nio.file.Path;
import java.time.Duration;
import java.util.ArrayList;
import java.util.HashMap;
import java.util.List;
import java.util.Map;
import java.util.concurrent.CompletableFuture;
import java.util.concurrent.ExecutionException;
import java.util.concurrent.Semaphore;

/**
 * A session with {@code bk_serve DIR}: one directory, served by a child process, or by a daemon ({@link #connect}).
 *
 * <p>Its methods may be called from any thread. {@link #send} sends a request ahead and returns the future of its reply; every
 * other method waits. The reader thread completes futures: what depends on one must not block in it. A future completes with
 * {@link RefusedException} if the server refused the request, and with {@link SessionEndedException} if the session ended before
 * the reply; whether the request took effect is then open. What was sent is carried out: to cancel a future changes nothing of it.
 *
 * <p>{@code accepted} is worth memory: what is not flushed is lost if the server is killed. README.md, Signals, says what ends it.
 *
 * <p>No native code is loaded. If either process dies, the other stays whole.
 */
public final class Bookie implements AutoCloseable {
    private static final ByteBuffer NONE = ByteBuffer.allocate(0);
    /** How long {@link #open(List)} tries to open a directory that is in use. */
    public static final Duration WAIT = Duration.ofSeconds(10);
    // The first pause between two tries, each twice the one before, and the longest, in milliseconds.
    private static final long PAUSE = 50;
    private static final long LONGEST = 1000;
    // Runs a program that ignores the signals that end the group of this process.
    private static final List<String> IGNORING = List.of("/bin/sh", "-c", "trap '' HUP INT QUIT TERM; exec \"$@\"", "sh");
    /** The program {@code setsid}, or null. */
    static String setsid = onPath("setsid");

    private final Process process;
    private final OutputStream out;
    private final Thread reader;
    // Held while a request is written. The reader takes the lock of `this` alone, which nobody holds meanwhile.
    private final Object writing = new Object();
    private final Map<Long, CompletableFuture<Reply>> waiting = new HashMap<>();
    private final Semaphore room = new Semaphore(1);
    private final long version;
    private final long pageLimit;
    private final Unflushed unflushed = new Unflushed();
    private long lastId;
    private String why;
    private boolean isClosed;

    /**
     * Starts the server, {@code command} being the program and its arguments, and opens its directory. While another process has
     * the directory, as a predecessor that still flushes, it is opened again for {@link #WAIT}; then the refusal is
     * {@code IN_USE}.
     *
     * <p>A signal to the group of this process, as ^C sends, does not end the server before this client closes: it is started by
     * {@code setsid} in a session of its own. Where that program is not on the path, it is started by {@code /bin/sh} and ignores
     * SIGHUP, SIGINT, SIGQUIT and SIGTERM, so that SIGKILL alone ends it early.
     */
    public static Bookie open(List<String> command) throws IOException {
        return open(command, WAIT);
    }

    /** The same with another time, which may be zero. */
    public static Bookie open(List<String> command, Duration wait) throws IOException {
        return openWithin(wait, () -> start(command), command.get(0));
    }

    /**
     * Opens a session with a daemon (../../tools/daemon) by the path of its socket. While the daemon has as many clients as it
     * takes, it is tried again for {@link #WAIT}; then the refusal is {@code IN_USE}.
     *
     * <p>The calls are the same. {@code close} flushes and ends this session, not the server, and so does {@code kill}, which does
     * not wait for its flush. The exit status is 0, and {@code pid} throws {@link UnsupportedOperationException}.
     */
    public static Bookie connect(Path socket) throws IOException {
        return openWithin(WAIT, () -> new Connection(socket), socket.toString());
    }

    /** Starts a server, or connects to one. */
    private interface Starter {
        Process start() throws IOException;
    }

    private static Bookie openWithin(Duration wait, Starter starter, String name) throws IOException {
        long until = System.nanoTime() + wait.toNanos();
        for (long pause = PAUSE; ; pause = Math.min(2 * pause, LONGEST)) {
            try {
                return new Bookie(starter.start(), name);
            } catch (RefusedException e) {
                if (e.status() != Status.IN_USE || System.nanoTime() + pause * 1_000_000 > until) throw e;
            }
            try {
                Thread.sleep(pause);
            } catch (InterruptedException e) {
                Thread.currentThread().interrupt();
                throw new IOException("interrupted", e);
            }
        }
    }

    private static Process start(List<String> command) throws IOException {
        List<String> words = new ArrayList<>(setsid != null ? List.of(setsid) : IGNORING);
        words.addAll(command);
        return new ProcessBuilder(words).redirectError(ProcessBuilder.Redirect.INHERIT).start();
    }

    private Bookie(Process started, String name) throws IOException {
        process = started;
        out = process.getOutputStream();
        reader = new Thread(this::readAll, "bookie replies");
        reader.setDaemon(true);
        reader.start();
        try {
            Reply welcome = call(Call.HELLO, NONE, Frames.MAGIC, Frames.VERSION, Frames.VERSION);
            version = welcome.numbers()[0];
            pageLimit = welcome.numbers()[3];
            room.release((int) Math.min(welcome.numbers()[2], 1 << 20) - 1);
        } catch (IOException | RuntimeException e) {
            kill();
            // What setsid and the shell end with if there is no such program, or it cannot be run.
            boolean isAbsent = e instanceof SessionEndedException && (exitStatus() == 126 || exitStatus() == 127);
            if (isAbsent) throw new IOException("cannot run " + name, e);
            throw e;
        }
    }

    /** Returns the path of a program, or null. */
    private static String onPath(String program) {
        String path = System.getenv("PATH");
        for (String directory : (path == null ? "" : path).split(File.pathSeparator)) {
            File file = new File(directory, program);
            if (!directory.isEmpty() && file.canExecute()) return file.getPath();
        }
        return null;
    }

    /** Returns the process id of the server. */
    public long pid() {
        return process.pid();
    }

    public long version() {
        return version;
    }

    // ---- requests and replies

    /** Sends a request with these numbers and bytes. Blocks while the server has as many unanswered as it takes. */
    public CompletableFuture<Reply> send(Call call, ByteBuffer bytes, long... numbers) {
        CompletableFuture<Reply> future = new CompletableFuture<>();
        room.acquireUninterruptibly();
        future.whenComplete((reply, error) -> room.release());
        synchronized (writing) {
            byte[] frame = null;
            String end;
            synchronized (this) {
                end = why;
                if (end == null) {
                    try {
                        frame = Frames.encode(call, lastId + 1, bytes, numbers);
                    } catch (IllegalArgumentException e) {
                        future.completeExceptionally(e);
                        throw e;
                    }
                    lastId += 1;
                    waiting.put(lastId, future);
                    unflushed.sent(lastId, call);
                }
            }
            if (end != null) {
                future.completeExceptionally(new SessionEndedException(end));
                return future;
            }
            try {
                out.write(frame);
                out.flush();
            } catch (IOException e) {
                // The reader meets the end of the replies, and fails what is waiting.
            }
        }
        return future;
    }

    /** Waits for a reply. */
    public static Reply await(CompletableFuture<Reply> future) throws IOException {
        try {
            return future.get();
        } catch (ExecutionException e) {
            if (e.getCause() instanceof RefusedException refused) throw new RefusedException(refused.status(), refused.numbers());
            throw new SessionEndedException(e.getCause().getMessage());
        } catch (InterruptedException e) {
            Thread.currentThread().interrupt();
            throw new IOException("interrupted", e);
        }
    }

    private Reply call(Call call, ByteBuffer bytes, long... numbers) throws IOException {
        return await(send(call, bytes, numbers));
    }

    private void readAll() {
        String end = "the server ended";
        try (DataInputStream in = new DataInputStream(new BufferedInputStream(process.getInputStream(), 1 << 16))) {
            for (Frames.Frame frame; (frame = Frames.read(in)) != null; ) {
                Reply reply = Frames.decode(frame.body());
                if (reply.status().isEnd()) {
                    end = new RefusedException(reply.status(), reply.numbers()).getMessage();
                    break;
                }
                CompletableFuture<Reply> future;
                synchronized (this) {
                    future = waiting.remove(frame.id());
                    unflushed.answered(frame.id(), reply.status());
                }
                if (future == null) {
                    end = "reply to no request: " + frame.id();
                    break;
                }
                if (reply.status().isRefusal()) future.completeExceptionally(new RefusedException(reply.status(), reply.numbers()));
                else future.complete(reply);
            }
        } catch (IOException e) {
            end = String.valueOf(e.getMessage());
        }
        List<CompletableFuture<Reply>> left;
        synchronized (this) {
            why = end;
            left = List.copyOf(waiting.values());
            waiting.clear();
        }
        for (CompletableFuture<Reply> future : left) future.completeExceptionally(new SessionEndedException(end));
    }

    // ---- entries

    /** Sends an add ahead. The content is what follows the two ids of the entry. */
    public CompletableFuture<Reply> sendAdd(long ledgerId, long entryId, ByteBuffer content) {
        return send(Call.ADD, content, ledgerId, entryId);
    }

    /** Returns the receipt of a reply to an add, or null if the store already has an entry of this key. */
    public static Receipt receipt(long ledgerId, long entryId, Reply reply) {
        if (reply.status() != Status.ACCEPTED) return null;
        byte[] digest = new byte[32];
        reply.bytes().duplicate().get(digest);
        return new Receipt(reply.numbers()[0], ledgerId, entryId, digest);
    }

    /** Adds an entry; null if the store already has one of this key, which is unchanged. */
    public Receipt add(long ledgerId, long entryId, ByteBuffer content) throws IOException {
        return receipt(ledgerId, entryId, await(sendAdd(ledgerId, entryId, content)));
    }

    /** Adds an entry as part of a recovery: a fence does not refuse it. */
    public Receipt addRecovery(long ledgerId, long entryId, ByteBuffer content) throws IOException {
        return receipt(ledgerId, entryId, call(Call.ADD_RECOVERY, content, ledgerId, entryId));
    }

    /** Returns the content of an entry, or null if there is no such entry. */
    public ByteBuffer read(long ledgerId, long entryId) throws IOException {
        return content(call(Call.READ, NONE, ledgerId, entryId));
    }

    /** Returns the entry with the greatest id of a ledger: status {@code ENTRY}, or {@code NOT_HELD}. */
    public Reply readLast(long ledgerId) throws IOException {
        return call(Call.READ_LAST, NONE, ledgerId);
    }

    /** Returns the content of the entry of a receipt. */
    public ByteBuffer readBack(Receipt receipt) throws IOException {
        return content(call(Call.READ_BACK, ByteBuffer.wrap(receipt.digest()), receipt.number(), receipt.ledgerId(), receipt.entryId()));
    }

    private static ByteBuffer content(Reply reply) {
        return reply.status() == Status.ENTRY ? reply.bytes() : null;
    }

    /** Returns the greatest entry id of a ledger, or -1 if it has no entry. */
    public long lastEntry(long ledgerId) throws IOException {
        Reply reply = call(Call.LAST_ENTRY, NONE, ledgerId);
        return reply.status() == Status.LAST ? reply.numbers()[0] : -1;
    }

    public boolean holds(long ledgerId, long entryId) throws IOException {
        return call(Call.HOLDS, NONE, ledgerId, entryId).status() == Status.YES;
    }

    /** Returns the first entry ids of a ledger from an id on, rising. It is empty after the last one. */
    public long[] entries(long ledgerId, long from) throws IOException {
        return ids(call(Call.ENTRIES, NONE, ledgerId, from, pageLimit));
    }

    /** Returns the first ids of ledgers with entries from an id on, rising. It is empty after the last one. */
    public long[] ledgers(long from) throws IOException {
        return ids(call(Call.LEDGERS, NONE, from, pageLimit));
    }

    private static long[] ids(Reply page) {
        long[] ids = new long[page.bytes().remaining() / 8];
        page.bytes().asLongBuffer().get(ids);
        return ids;
    }

    // ---- ledgers

    /** Fences a ledger. Returns whether it was not fenced before. */
    public boolean fence(long ledgerId) throws IOException {
        return call(Call.FENCE, NONE, ledgerId).status() == Status.FENCED_NOW;
    }

    public boolean isFenced(long ledgerId) throws IOException {
        return call(Call.IS_FENCED, NONE, ledgerId).status() == Status.YES;
    }

    /** Deletes a ledger. Returns how many entries it had. */
    public long delete(long ledgerId) throws IOException {
        return call(Call.DELETE, NONE, ledgerId).numbers()[0];
    }

    public void setMasterKey(long ledgerId, ByteBuffer key) throws IOException {
        call(Call.SET_MASTER_KEY, key, ledgerId);
    }

    /** Returns the master key of a ledger, or null. */
    public ByteBuffer masterKey(long ledgerId) throws IOException {
        return attribute(call(Call.MASTER_KEY, NONE, ledgerId));
    }

    public void setExplicitLac(long ledgerId, ByteBuffer lac) throws IOException {
        call(Call.SET_EXPLICIT_LAC, lac, ledgerId);
    }

    /** Returns the explicit LAC of a ledger, or null. */
    public ByteBuffer explicitLac(long ledgerId) throws IOException {
        return attribute(call(Call.EXPLICIT_LAC, NONE, ledgerId));
    }

    private static ByteBuffer attribute(Reply reply) {
        return reply.status() == Status.ATTRIBUTE ? reply.bytes() : null;
    }

    // ---- store

    /** Makes everything that was accepted durable. Returns how many entries this published. */
    public long flush() throws IOException {
        return call(Call.FLUSH, NONE).numbers()[0];
    }

    /** Flushes. Returns the number of marks of the trail that are durable. */
    public long checkpoint() throws IOException {
        return call(Call.CHECKPOINT, NONE).numbers()[0];
    }

    /**
     * Compacts the logs whose live share is below the server's thresholds. {@code minor} and {@code major} are these in
     * thousandths, 200 and 800 unless the server has others. 0 omits a kind, and any other number is refused
     * ({@code Status.OUT_OF_RANGE}).
     */
    public Compacted compact(long minor, long major) throws IOException {
        long[] numbers = call(Call.COMPACT, NONE, minor, major).numbers();
        return new Compacted(numbers[0], numbers[1]);
    }

    /** Returns the store in numbers. */
    public Figures stats() throws IOException {
        return Figures.of(call(Call.STATS, NONE).numbers());
    }

    /** Flushes and seals the open log. Returns its id, or -1 if no log is open. */
    public long seal() throws IOException {
        Reply reply = call(Call.SEAL, NONE);
        return reply.status() == Status.SEALED ? reply.numbers()[0] : -1;
    }

    // ---- end

    /** Returns how many entries were accepted that may be in memory alone: no flush that was sent later is answered. */
    public synchronized long unflushed() {
        return unflushed.count();
    }

    /**
     * Flushes and ends the session. If it returns, everything that was accepted is durable. If the flush fails, the session ends
     * too, and {@link RefusedException} is why. If the session had ended before, or ends meanwhile, it throws
     * {@link SessionEndedException}, which says how many entries may be lost. After {@code close} or {@code kill} a call does
     * nothing.
     */
    @Override
    public void close() throws IOException {
        boolean isOver;
        synchronized (this) {
            isOver = isClosed;
            isClosed = true;
        }
        try {
            if (!isOver) call(Call.CLOSE, NONE);
        } catch (SessionEndedException e) {
            throw new SessionEndedException(e.getMessage() + "; accepted and not flushed: " + unflushed());
        } finally {
            end();
        }
    }

    /** Ends the server at once, as a crash does. What was accepted and not flushed is lost. */
    public void kill() {
        synchronized (this) {
            isClosed = true;
        }
        process.destroyForcibly();
        end();
    }

    /** Returns the exit status of the server, after the session has ended. */
    public int exitStatus() {
        return process.exitValue();
    }

    private void end() {
        try {
            out.close();
        } catch (IOException e) {
            // The server has gone.
        }
        try {
            process.waitFor();
            reader.join();
        } catch (InterruptedException e) {
            Thread.currentThread().interrupt();
        }
    }
}
