package org.dabchickrug.bookie;

/**
 * What a call of {@link Bookie#compact} did: the numbers of logs removed, and of entries copied.
 */
public record Compacted(long logs, long entries) {}
