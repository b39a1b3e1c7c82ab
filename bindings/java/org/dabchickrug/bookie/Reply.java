package org.dabchickrug.bookie;

import java.nio.ByteBuffer;
import java.util.Arrays;
import java.util.Objects;

/**
 * A reply that is no refusal: its status, its numbers in the order of the protocol's page, and the
 * bytes after them.
 */
public record Reply(Status status, long[] numbers, ByteBuffer bytes) {
    @Override
    public boolean equals(Object other) {
        return other instanceof Reply it
                && status == it.status
                && Arrays.equals(numbers, it.numbers)
                && bytes.equals(it.bytes);
    }

    @Override
    public int hashCode() {
        return Objects.hash(status, Arrays.hashCode(numbers), bytes);
    }

    @Override
    public String toString() {
        String what = "status=" + status.text() + ", numbers=" + Arrays.toString(numbers);
        return "Reply[" + what + ", bytes=" + bytes.remaining() + "]";
    }
}
