package org.dabchickrug.bookie;

/** Statuses of replies: what was done, why a request was refused, and why a session ended. */
public enum Status {
    /** Fields: version, largest, in_flight, page. */
    WELCOME(32, 4, 0, 0),
    /** Fields: number, digest. */
    ACCEPTED(33, 1, 32, 32),
    /** No fields. */
    HELD(34, 0, 0, 0),
    /** Fields: ledger, entry, content. */
    ENTRY(35, 2, 0, 4999984),
    /** No fields. */
    NOT_HELD(36, 0, 0, 0),
    /** Fields: entry. */
    LAST(37, 1, 0, 0),
    /** No fields. */
    YES(38, 0, 0, 0),
    /** No fields. */
    NO(39, 0, 0, 0),
    /** Fields: ids. */
    PAGE(40, 0, 0, 524288),
    /** No fields. */
    FENCED_NOW(41, 0, 0, 0),
    /** No fields. */
    FENCED_BEFORE(42, 0, 0, 0),
    /** Fields: entries. */
    DROPPED(43, 1, 0, 0),
    /** No fields. */
    STORED(44, 0, 0, 0),
    /** Fields: value. */
    ATTRIBUTE(45, 0, 0, 256),
    /** No fields. */
    NO_ATTRIBUTE(46, 0, 0, 0),
    /** Fields: entries. */
    FLUSHED(47, 1, 0, 0),
    /** Fields: front. */
    DURABLE(48, 1, 0, 0),
    /** Fields: logs, entries. */
    COMPACTED(49, 2, 0, 0),
    /** Fields: logs, bytes, live, cached, indexed, durable, next_log, front, leases, failures. */
    FIGURES(50, 10, 0, 0),
    /** Fields: log. */
    SEALED(51, 1, 0, 0),
    /** No fields. */
    NOTHING_OPEN(52, 0, 0, 0),
    /** Fields: front. */
    CLOSED(53, 1, 0, 0),
    /** Fields: seen, front. */
    BACKWARDS(64, 2, 0, 0),
    /** No fields. */
    NEGATIVE(65, 0, 0, 0),
    /** Fields: length. */
    TOO_LONG(66, 1, 0, 0),
    /** No fields. */
    DELETED(67, 0, 0, 0),
    /** No fields. */
    FENCED(68, 0, 0, 0),
    /** Fields: used, limit. */
    FULL(69, 2, 0, 0),
    /** No fields. */
    MEMORY(70, 0, 0, 0),
    /** No fields. */
    NO_SEAT(71, 0, 0, 0),
    /** No fields. */
    TOO_MANY(72, 0, 0, 0),
    /** No fields. */
    ALREADY_DELETED(73, 0, 0, 0),
    /** Fields: front. */
    MISSING(74, 1, 0, 0),
    /** No fields. */
    DIFFERS(75, 0, 0, 0),
    /** No fields. */
    NOT_THERE(76, 0, 0, 0),
    /** No fields. */
    DISK(77, 0, 0, 0),
    /** No fields. */
    ODD(78, 0, 0, 0),
    /** No fields. */
    LOGS_FULL(79, 0, 0, 0),
    /** No fields. */
    NO_MORE_IDS(80, 0, 0, 0),
    /** No fields. */
    SETTINGS(81, 0, 0, 0),
    /** Fields: log. */
    BAD_LOG(82, 1, 0, 0),
    /** Fields: log. */
    LOG_TOO_LONG(83, 1, 0, 0),
    /** No fields. */
    IN_USE(84, 0, 0, 0),
    /** No fields. */
    BUSY(85, 0, 0, 0),
    /** No fields. */
    OUT_OF_RANGE(86, 0, 0, 0),
    /** No fields. */
    NO_THREAD(87, 0, 0, 0),
    /** No fields. */
    NOT_OFFERED(88, 0, 0, 0),
    /** No fields. */
    NO_HELLO(96, 0, 0, 0),
    /** Fields: lowest, highest. */
    VERSION(97, 2, 0, 0),
    /** No fields. */
    SECOND_HELLO(98, 0, 0, 0),
    /** Fields: length, read. */
    CUT(99, 2, 0, 0),
    /** Fields: length. */
    SHORT(100, 1, 0, 0),
    /** Fields: length, largest. */
    OVERSIZED(101, 2, 0, 0),
    /** Fields: call. */
    UNKNOWN_CALL(102, 1, 0, 0),
    /** Fields: call, length. */
    BAD_FIELDS(103, 2, 0, 0),
    /** Fields: next, previous. */
    NOT_RISING(104, 2, 0, 0),
    /** No fields. */
    INPUT_FAILED(105, 0, 0, 0),
    /** No fields. */
    NO_MEMORY(106, 0, 0, 0);

    private static final Status[] BY_CODE = new Status[256];

    static {
        for (Status status : values()) BY_CODE[status.code] = status;
    }

    final int code;
    final int numbers;
    final int least;
    final int most;

    Status(int code, int numbers, int least, int most) {
        this.code = code;
        this.numbers = numbers;
        this.least = least;
        this.most = most;
    }

    static Status of(int code) {
        return BY_CODE[code];
    }

    /** Whether a request was refused for this reason. */
    public boolean isRefusal() {
        return code >= 64 && code < 96;
    }

    /** Whether the session ended for this reason. */
    public boolean isEnd() {
        return code >= 96;
    }

    /** The name of the protocol's page. */
    public String text() {
        return name().toLowerCase(java.util.Locale.ROOT);
    }
}
