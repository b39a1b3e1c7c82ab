package org.dabchickrug.bookie;

/** The store in numbers, as {@link Bookie#stats} returns them; protocol.md has what each counts. */
public record Figures(
        long logs,
        long bytes,
        long live,
        long cached,
        long indexed,
        long durable,
        long nextLog,
        long front,
        long leases,
        long failures) {
    static Figures of(long[] n) {
        return new Figures(n[0], n[1], n[2], n[3], n[4], n[5], n[6], n[7], n[8], n[9]);
    }
}
