import java.nio.ByteBuffer;
import java.nio.charset.StandardCharsets;
import java.nio.file.Path;
import java.util.ArrayList;
import java.util.List;
import java.util.concurrent.CompletableFuture;
import org.dabchickrug.bookie.Bookie;
import org.dabchickrug.bookie.Call;
import org.dabchickrug.bookie.RefusedException;
import org.dabchickrug.bookie.Reply;
import org.dabchickrug.bookie.Status;

/** Uses a daemon by the client in Java: usage: Connects SOCKET. Prints what it found. */
public final class Connects {
    private static final int COUNT = 600;

    private static Status refusal(Bookie bookie) throws Exception {
        try {
            bookie.read(-1, 0);
            return Status.ENTRY;
        } catch (RefusedException e) {
            return e.status();
        }
    }

    public static void main(String[] words) throws Exception {
        Bookie bookie = Bookie.connect(Path.of(words[0]));
        List<CompletableFuture<Reply>> sent = new ArrayList<>();
        ByteBuffer content = ByteBuffer.wrap("hello".getBytes(StandardCharsets.UTF_8));
        for (int entry = 0; entry < COUNT; entry++) sent.add(bookie.send(Call.ADD, content.duplicate(), 7, entry));
        int accepted = 0;
        for (CompletableFuture<Reply> future : sent) accepted += Bookie.await(future).status() == Status.ACCEPTED ? 1 : 0;
        ByteBuffer found = bookie.read(7, COUNT - 1);
        String text = StandardCharsets.UTF_8.decode(found).toString();
        System.out.println(accepted + " " + text + " " + refusal(bookie) + " " + bookie.unflushed());
        bookie.close();
        bookie.close();
        System.out.println(bookie.unflushed() + " " + bookie.exitStatus());
        Bookie.connect(Path.of(words[0])).kill();
    }
}
