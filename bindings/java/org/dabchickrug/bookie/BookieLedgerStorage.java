package org.dabchickrug.bookie;

import java.io.IOException;
import java.nio.ByteBuffer;
import java.util.List;
import java.util.NoSuchElementException;
import java.util.PrimitiveIterator;

/**
 * The storage of a bookie in the form of BookKeeper's {@code org.apache.bookkeeper.bookie.LedgerStorage}, over {@link Bookie}.
 *
 * <p>Each method says which method of that interface it is for, and where it differs. It does not implement the interface, so
 * that it compiles without BookKeeper: an adapter turns a {@code ByteBuf} into a {@code ByteBuffer} ({@code nioBuffer()},
 * {@code Unpooled.wrappedBuffer}) and the exceptions below into {@code BookieException}. An entry is what a bookie is sent:
 * ledger id and entry id, 8 bytes each, then the rest, which begins with the last add confirmed.
 *
 * <p>Left out, because the store owns them or they are the bookie's own: {@code initialize}, {@code setStateManager},
 * {@code setCheckpointSource} and {@code setCheckpointer} (the directory is opened by the constructor; the caller asks for
 * {@link #checkpoint}), {@code start}, {@code registerLedgerDeletionListener}, {@code waitForLastAddConfirmedUpdate} (watchers
 * are the bookie's: it knows its own adds), {@code setLimboState} and the other calls of the integrity check.
 */
public final class BookieLedgerStorage implements AutoCloseable {
    private static final int IDS = 16;

    private final Bookie bookie;

    /** For {@code initialize} and {@code start}: starts {@code bk_serve DIR} and opens the directory. */
    public BookieLedgerStorage(List<String> command) throws IOException {
        bookie = Bookie.open(command);
    }

    /** No ledger, or no entry of it: {@code Bookie.NoLedgerException}, {@code Bookie.NoEntryException}. */
    public static final class NotFoundException extends IOException {
        private static final long serialVersionUID = 1;

        NotFoundException(String what) {
            super(what);
        }
    }

    /** For {@code shutdown()}: flushes and ends the server. If it returns, everything that was added is durable. */
    @Override
    public void close() throws IOException {
        bookie.close();
    }

    /** {@code boolean ledgerExists(long)}: whether the ledger has an entry or a master key, and is not deleted. */
    public boolean ledgerExists(long ledgerId) throws IOException {
        try {
            return bookie.lastEntry(ledgerId) >= 0 || bookie.masterKey(ledgerId) != null;
        } catch (RefusedException e) {
            if (e.status() == Status.DELETED) return false;
            throw e;
        }
    }

    /** {@code boolean entryExists(long, long)}: without reading a log. No exception for a ledger that is not there. */
    public boolean entryExists(long ledgerId, long entryId) throws IOException {
        return bookie.holds(ledgerId, entryId);
    }

    /** {@code boolean setFenced(long)}: durable when it returns. True if the ledger was not fenced before, as there. */
    public boolean setFenced(long ledgerId) throws IOException {
        return bookie.fence(ledgerId);
    }

    /** {@code boolean isFenced(long)}: false, not an exception, for a ledger that is not there. */
    public boolean isFenced(long ledgerId) throws IOException {
        return bookie.isFenced(ledgerId);
    }

    /** {@code void setMasterKey(long, byte[])}: durable when it returns; up to 256 bytes. */
    public void setMasterKey(long ledgerId, byte[] masterKey) throws IOException {
        bookie.setMasterKey(ledgerId, ByteBuffer.wrap(masterKey));
    }

    /**
     * {@code byte[] readMasterKey(long)}: {@link NotFoundException} for {@code Bookie.NoLedgerException} if the ledger has no key.
     * A deleted ledger is refused ({@code Status.DELETED}).
     */
    public byte[] readMasterKey(long ledgerId) throws IOException {
        return bytes(found(bookie.masterKey(ledgerId), "ledger " + ledgerId));
    }

    /**
     * {@code long addEntry(ByteBuf)}: adds the remaining bytes, whose position stays, and returns the entry id. An entry that the
     * store already has is unchanged and counts as added. If the write cache is full, this flushes and adds again, where
     * {@code DbLedgerStorage} throws {@code OperationRejectedException} after a time. A fenced ledger refuses it
     * ({@code Status.FENCED}): the bookie adds entries of a recovery by {@link #addRecoveryEntry}.
     */
    public long addEntry(ByteBuffer entry) throws IOException {
        return add(Call.ADD, entry);
    }

    /** The same for an entry of a recovery, which a fence does not refuse. There the bookie keeps that rule, not the storage. */
    public long addRecoveryEntry(ByteBuffer entry) throws IOException {
        return add(Call.ADD_RECOVERY, entry);
    }

    private long add(Call call, ByteBuffer entry) throws IOException {
        if (entry.remaining() < IDS) throw new IllegalArgumentException("entry of " + entry.remaining() + " bytes");
        ByteBuffer bytes = entry.slice();
        long ledgerId = bytes.getLong(), entryId = bytes.getLong();
        while (true) {
            try {
                Bookie.await(bookie.send(call, bytes, ledgerId, entryId));
                return entryId;
            } catch (RefusedException e) {
                if (e.status() != Status.FULL) throw e;
                bookie.flush();
            }
        }
    }

    /**
     * {@code ByteBuf getEntry(long, long)}: the whole entry, with its ids. -1 ({@code BookieProtocol.LAST_ADD_CONFIRMED}) asks for
     * the entry with the greatest id. {@link NotFoundException} for {@code Bookie.NoEntryException}. A deleted ledger is refused
     * ({@code Status.DELETED}), there and in the calls below that read.
     */
    public ByteBuffer getEntry(long ledgerId, long entryId) throws IOException {
        Reply reply = entryId == -1 ? bookie.readLast(ledgerId) : Bookie.await(bookie.send(Call.READ, ByteBuffer.allocate(0), ledgerId, entryId));
        if (reply.status() != Status.ENTRY) throw new NotFoundException("entry " + entryId + " of ledger " + ledgerId);
        ByteBuffer entry = ByteBuffer.allocate(IDS + reply.bytes().remaining());
        return entry.putLong(reply.numbers()[0]).putLong(reply.numbers()[1]).put(reply.bytes()).flip();
    }

    /** {@code long getLastAddConfirmed(long)}: the number at bytes 16 to 24 of the entry with the greatest id, as there. */
    public long getLastAddConfirmed(long ledgerId) throws IOException {
        ByteBuffer last = getEntry(ledgerId, -1);
        if (last.remaining() < IDS + 8) throw new IOException("entry without a last add confirmed");
        return last.getLong(IDS);
    }

    /** {@code void flush()}: everything that was added is durable when it returns. */
    public void flush() throws IOException {
        bookie.flush();
    }

    /**
     * {@code void checkpoint(Checkpoint)}: flushes. Everything that was added before the call is durable when it returns, so the
     * bookie may mark the journal up to where it stood before the call. Returns the number of changes that are durable.
     */
    public long checkpoint() throws IOException {
        return bookie.checkpoint();
    }

    /** {@code void deleteLedger(long)}: durable when it returns; deleting twice is no error, as there. Compaction frees the space. */
    public void deleteLedger(long ledgerId) throws IOException {
        try {
            bookie.delete(ledgerId);
        } catch (RefusedException e) {
            if (e.status() != Status.ALREADY_DELETED) throw e;
        }
    }

    /** {@code void setExplicitLac(long, ByteBuf)}: durable when it returns; up to 256 bytes, not interpreted. */
    public void setExplicitLac(long ledgerId, ByteBuffer lac) throws IOException {
        bookie.setExplicitLac(ledgerId, lac);
    }

    /** {@code ByteBuf getExplicitLac(long)}: null if there is none, as there. */
    public ByteBuffer getExplicitLac(long ledgerId) throws IOException {
        return bookie.explicitLac(ledgerId);
    }

    /**
     * {@code void forceGC(boolean, boolean)}: compacts. Each number is the server's threshold in thousandths, 800 and 200 unless it
     * has others, or 0, which omits the kind; any other is refused ({@code Status.OUT_OF_RANGE}).
     */
    public void forceGC(long majorThousandths, long minorThousandths) throws IOException {
        bookie.compact(minorThousandths, majorThousandths);
    }

    /** {@code OfLong getListOfEntriesOfLedger(long)}: rising; reads a page when the one before is used up. */
    public PrimitiveIterator.OfLong getListOfEntriesOfLedger(long ledgerId) throws IOException {
        return new Pages(from -> bookie.entries(ledgerId, from), Long.MAX_VALUE);
    }

    /** {@code Iterable<Long> getActiveLedgersInRange(long, long)}: ledgers with entries, {@code first} included, {@code last} not. */
    public PrimitiveIterator.OfLong getActiveLedgersInRange(long first, long last) throws IOException {
        return new Pages(first, bookie::ledgers, last);
    }

    private static <T> T found(T value, String what) throws NotFoundException {
        if (value == null) throw new NotFoundException(what);
        return value;
    }

    private static byte[] bytes(ByteBuffer buffer) {
        byte[] bytes = new byte[buffer.remaining()];
        buffer.duplicate().get(bytes);
        return bytes;
    }

    /** Reads a page of rising ids. */
    private interface PageReader {
        long[] read(long from) throws IOException;
    }

    /** Rising ids below an end, page by page. */
    private static final class Pages implements PrimitiveIterator.OfLong {
        private final PageReader reader;
        private final long end;
        private long[] page;
        private int at;

        Pages(PageReader reader, long end) throws IOException {
            this(0, reader, end);
        }

        Pages(long from, PageReader reader, long end) throws IOException {
            this.reader = reader;
            this.end = end;
            page = reader.read(from);
        }

        @Override
        public boolean hasNext() {
            return at < page.length && page[at] < end;
        }

        @Override
        public long nextLong() {
            if (!hasNext()) throw new NoSuchElementException();
            long id = page[at++];
            if (at == page.length && id < Long.MAX_VALUE) {
                try {
                    page = reader.read(id + 1);
                } catch (IOException e) {
                    throw new java.io.UncheckedIOException(e);
                }
                at = 0;
            }
            return id;
        }
    }
}
