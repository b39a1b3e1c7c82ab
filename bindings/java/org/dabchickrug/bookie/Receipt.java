package org.dabchickrug.bookie;

import java.util.Arrays;
import java.util.HexFormat;
import java.util.Objects;

/**
 * Evidence that an entry was accepted: the number of its mark in the trail, its key, and the
 * SHA-256 of the entry.
 */
public record Receipt(long number, long ledgerId, long entryId, byte[] digest) {
    @Override
    public boolean equals(Object other) {
        return other instanceof Receipt it
                && number == it.number
                && ledgerId == it.ledgerId
                && entryId == it.entryId
                && Arrays.equals(digest, it.digest);
    }

    @Override
    public int hashCode() {
        return Objects.hash(number, ledgerId, entryId, Arrays.hashCode(digest));
    }

    @Override
    public String toString() {
        String key = "number=" + number + ", ledgerId=" + ledgerId + ", entryId=" + entryId;
        return "Receipt[" + key + ", digest=" + HexFormat.of().formatHex(digest) + "]";
    }
}
