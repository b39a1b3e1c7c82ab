package org.dabchickrug.bookie;

import java.io.DataInputStream;
import java.io.EOFException;
import java.io.IOException;
import java.nio.ByteBuffer;

/** Frames of {@code bk_serve} (protocol.md) as bytes. All numbers are big-endian, as a {@code ByteBuffer}'s are. */
final class Frames {
    static final long MAGIC = 0x424b53455256450aL;
    static final long VERSION = 1;
    static final int LARGEST = 5_000_064;

    private Frames() {}

    /** A frame that was read: the id, and the other bytes. */
    record Frame(long id, ByteBuffer body) {}

    /** Returns the frame of a request. The position of {@code tail} stays. */
    static byte[] encode(Call call, long id, ByteBuffer tail, long... numbers) {
        int length = tail.remaining();
        if (numbers.length != call.numbers || length < call.least || length > call.most)
            throw new IllegalArgumentException(call + " with " + numbers.length + " numbers and " + length + " bytes");
        ByteBuffer frame = ByteBuffer.allocate(13 + 8 * numbers.length + length);
        frame.putInt(9 + 8 * numbers.length + length).putLong(id).put((byte) call.code);
        for (long number : numbers) frame.putLong(number);
        return frame.put(tail.duplicate()).array();
    }

    /** Returns the reply whose bytes after the id are these. */
    static Reply decode(ByteBuffer body) throws IOException {
        int code = body.get() & 255;
        Status status = Status.of(code);
        if (status == null) throw new IOException("unknown status " + code);
        int length = body.remaining() - 8 * status.numbers;
        if (length < status.least || length > status.most || status == Status.PAGE && length % 8 != 0)
            throw new IOException("status " + code + " with " + body.remaining() + " bytes of fields");
        long[] numbers = new long[status.numbers];
        for (int i = 0; i < numbers.length; i++) numbers[i] = body.getLong();
        return new Reply(status, numbers, body.slice());
    }

    /** Returns the next frame, or null at the end. */
    static Frame read(DataInputStream in) throws IOException {
        int first = in.read();
        if (first < 0) return null;
        int length = first << 24 | in.readUnsignedByte() << 16 | in.readUnsignedShort();
        if (length < 9 || length > LARGEST) throw new IOException("frame of " + Integer.toUnsignedString(length) + " bytes");
        byte[] bytes = in.readNBytes(length);
        if (bytes.length < length) throw new EOFException("cut frame " + length + " " + bytes.length);
        ByteBuffer body = ByteBuffer.wrap(bytes);
        return new Frame(body.getLong(), body.slice());
    }
}
