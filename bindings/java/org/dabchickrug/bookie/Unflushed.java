package org.dabchickrug.bookie;

/**
 * Counts the entries that were accepted and that no answered flush covers, by the ids of requests.
 * Its user has a lock.
 */
final class Unflushed {
    // Entries that were accepted: all, and those sent after the flush that was sent last.
    private long all;
    private long after;
    // The greatest ids of an accepted add, of an answered flush, and of a flush that was sent.
    private long accepted;
    private long covered;
    private long flush;

    /** A request was sent. */
    void sent(long id, Call call) {
        switch (call) {
            case FLUSH, CHECKPOINT, SEAL, CLOSE -> {
                flush = id;
                after = 0;
            }
            default -> {}
        }
    }

    /** A request was answered. */
    void answered(long id, Status status) {
        switch (status) {
            case ACCEPTED -> {
                accepted = Math.max(accepted, id);
                all += id > covered ? 1 : 0;
                after += id > flush ? 1 : 0;
            }
            case FLUSHED, DURABLE, SEALED, NOTHING_OPEN, CLOSED -> {
                covered = Math.max(covered, id);
                if (id == flush) all = after;
            }
            default -> {}
        }
    }

    /** Returns how many, or more while a later flush has no answer. */
    long count() {
        return accepted > covered ? all : 0;
    }
}
