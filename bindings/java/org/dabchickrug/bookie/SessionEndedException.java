package org.dabchickrug.bookie;

import java.io.IOException;

/** The session has ended: the server stopped, was killed, or met a fault of a frame. Whether the request took effect is open. */
public final class SessionEndedException extends IOException {
    private static final long serialVersionUID = 1;

    SessionEndedException(String why) {
        super(why);
    }
}
