package org.dabchickrug.bookie;

import java.io.IOException;
import java.util.Arrays;

/** The server refused a request. Nothing was changed, unless the status is {@code DISK}. */
public final class RefusedException extends IOException {
    private static final long serialVersionUID = 1;
    private final Status status;
    private final long[] numbers;

    RefusedException(Status status, long[] numbers) {
        super(numbers.length == 0 ? status.text() : status.text() + " " + Arrays.toString(numbers));
        this.status = status;
        this.numbers = numbers;
    }

    public Status status() {
        return status;
    }

    public long[] numbers() {
        return numbers.clone();
    }
}
