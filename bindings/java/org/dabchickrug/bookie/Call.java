package org.dabchickrug.bookie;

/** Calls of requests: their numbers, and how many bytes may follow these. */
public enum Call {
    /** Fields: magic, lowest, highest. */
    HELLO(1, 3, 0, 0),
    /** Fields: ledger, entry, content. */
    ADD(2, 2, 0, 4999984),
    /** Fields: ledger, entry, content. */
    ADD_RECOVERY(3, 2, 0, 4999984),
    /** Fields: ledger, entry. */
    READ(4, 2, 0, 0),
    /** Fields: ledger. */
    READ_LAST(5, 1, 0, 0),
    /** Fields: number, ledger, entry, digest. */
    READ_BACK(6, 3, 32, 32),
    /** Fields: ledger. */
    LAST_ENTRY(7, 1, 0, 0),
    /** Fields: ledger, entry. */
    HOLDS(8, 2, 0, 0),
    /** Fields: ledger, from, most. */
    ENTRIES(9, 3, 0, 0),
    /** Fields: from, most. */
    LEDGERS(10, 2, 0, 0),
    /** Fields: ledger. */
    FENCE(11, 1, 0, 0),
    /** Fields: ledger. */
    IS_FENCED(12, 1, 0, 0),
    /** Fields: ledger. */
    DELETE(13, 1, 0, 0),
    /** Fields: ledger, key. */
    SET_MASTER_KEY(14, 1, 0, 256),
    /** Fields: ledger. */
    MASTER_KEY(15, 1, 0, 0),
    /** Fields: ledger, lac. */
    SET_EXPLICIT_LAC(16, 1, 0, 256),
    /** Fields: ledger. */
    EXPLICIT_LAC(17, 1, 0, 0),
    /** No fields. */
    FLUSH(18, 0, 0, 0),
    /** No fields. */
    CHECKPOINT(19, 0, 0, 0),
    /** Fields: minor, major. */
    COMPACT(20, 2, 0, 0),
    /** No fields. */
    STATS(21, 0, 0, 0),
    /** No fields. */
    SEAL(22, 0, 0, 0),
    /** No fields. */
    CLOSE(23, 0, 0, 0);

    final int code;
    final int numbers;
    final int least;
    final int most;

    Call(int code, int numbers, int least, int most) {
        this.code = code;
        this.numbers = numbers;
        this.least = least;
        this.most = most;
    }
}
