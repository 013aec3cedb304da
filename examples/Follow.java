import java.io.BufferedInputStream;
import java.io.DataInputStream;
import java.io.IOException;
import java.io.OutputStream;
import java.net.Socket;
import java.nio.ByteBuffer;
import java.nio.ByteOrder;
import java.nio.charset.StandardCharsets;

/**
 * Follows a recording of a served archive: docs/PROTOCOL.md, "Following a recording".
 * Usage: java Follow.java HOST:PORT RECORDING POSITION LENGTH > frames
 * Standard output gets each frame as it comes, standard error the server's answer, and at the end the position to go on from.
 * Status 0: stopped, or the bound is reached. 1: refused, or ended early. 3: the server can't read on.
 */
public class Follow {
    static final int HEADER_LENGTH = 32, PAD = 0, END_OF_STREAM = 0x20, FAULT = 0x01;
    static final int SILENCE = 10_000; // milliseconds; the server sends a heartbeat every 100
    static long position;

    public static void main(String[] words) throws IOException {
        int colon = words[0].lastIndexOf(':');
        int status;
        try (Socket server = new Socket(words[0].substring(0, colon), Integer.parseInt(words[0].substring(colon + 1)))) {
            server.setSoTimeout(SILENCE);
            String line = "follow " + words[1] + " " + words[2] + " " + words[3] + "\n";
            server.getOutputStream().write(line.getBytes(StandardCharsets.US_ASCII));
            DataInputStream stream = new DataInputStream(new BufferedInputStream(server.getInputStream(), 65_536));
            StringBuilder answer = new StringBuilder();
            for (int letter = stream.read(); letter >= 0 && letter != '\n'; letter = stream.read()) answer.append((char) letter);
            System.err.println(answer);
            if (!answer.toString().startsWith("following ")) System.exit(1);
            position = Long.parseLong(answer.substring("following ".length()));
            status = follow(stream, System.out);
        }
        System.err.println("go on from " + position);
        System.exit(status);
    }

    /** Hands on the frames that come; the status. */
    static int follow(DataInputStream stream, OutputStream taken) {
        byte[] frame = new byte[65_536];
        ByteBuffer fields = ByteBuffer.wrap(frame).order(ByteOrder.LITTLE_ENDIAN);
        try {
            while (true) {
                stream.readFully(frame, 0, HEADER_LENGTH);
                int length = fields.getInt(0), flags = fields.get(5), aligned = (length + 31) & -32;
                if (length == 0 && (flags & END_OF_STREAM) != 0) return (flags & FAULT) != 0 ? 3 : 0;
                if (length == 0) continue;
                int size = fields.getShort(6) == PAD ? HEADER_LENGTH : aligned;
                stream.readFully(frame, HEADER_LENGTH, size - HEADER_LENGTH);
                taken.write(frame, 0, size);
                taken.flush();
                position += aligned;
            }
        } catch (IOException broken) {
            return 1;
        }
    }
}
