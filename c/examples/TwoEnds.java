import com.sun.jna.Library;
import com.sun.jna.Native;
import com.sun.jna.NativeLong;
import com.sun.jna.Pointer;
import com.sun.jna.Structure;
import com.sun.jna.ptr.NativeLongByReference;
import java.nio.charset.StandardCharsets;
import java.util.Arrays;

/** Seals a text as KRB-PRIV at one end of a session, and opens it at the other, by JNA over libkrbrelay. */
public class TwoEnds {
    static final int KRB_PRIV = 21, IPV4 = 2, ETYPE = 17;
    /** The key of the session comes from the exchange before it. */
    static final byte[] KEY = "chicken teriyaki".getBytes(StandardCharsets.US_ASCII);

    /** The calls of krbrelay.h that are used here. */
    public interface Calls extends Library {
        int krbrelay_sealer_new(Handle sealer, int etype, byte[] key, NativeLong len, Session session);
        int krbrelay_sealer_seal_now(Handle sealer, byte[] data, NativeLong len, byte[] frame, NativeLong room,
                                     NativeLongByReference size);
        void krbrelay_sealer_free(Handle sealer);
        int krbrelay_opener_new(Handle opener, int etype, byte[] key, NativeLong len, Expect expect);
        int krbrelay_opener_unseal(Handle opener, byte[] frame, NativeLong len, long number, Moment at, byte[] data,
                                   NativeLong room, NativeLongByReference size);
        void krbrelay_opener_free(Handle opener);
        NativeLong krbrelay_frame_size(NativeLong len);
        int krbrelay_now(Moment now);
        String krbrelay_strerror(int answer);
    }

    static final Calls CALLS = Native.load("krbrelay", Calls.class);

    @Structure.FieldOrder({"at", "count"})
    public static class Handle extends Structure {
        public Pointer at;
        public NativeLong count = new NativeLong();
    }

    @Structure.FieldOrder({"seconds", "microseconds", "reserved"})
    public static class Moment extends Structure {
        public long seconds;
        public int microseconds, reserved;
    }

    @Structure.FieldOrder({"kind", "len", "bytes"})
    public static class Address extends Structure {
        public int kind, len;
        public byte[] bytes = new byte[40];

        void set(int... octets) {
            kind = IPV4;
            len = octets.length;
            for (int i = 0; i < len; i++) {
                bytes[i] = (byte) octets[i];
            }
        }
    }

    @Structure.FieldOrder({"mode", "first", "sender", "has_receiver", "receiver", "reserved"})
    public static class Session extends Structure {
        public int mode, first;
        public Address sender = new Address();
        public int has_receiver;
        public Address receiver = new Address();
        public int[] reserved = new int[5];
    }

    @Structure.FieldOrder({"mode", "sender", "receiver", "require_receiver", "require_time", "skew", "reserved"})
    public static class Expect extends Structure {
        public int mode;
        public Address sender = new Address(), receiver = new Address();
        public int require_receiver, require_time, skew;
        public int[] reserved = new int[4];
    }

    /** What the library answers in place of a result. */
    static class Answer extends Exception {
        final int number;

        Answer(int number) {
            super(number + ": " + CALLS.krbrelay_strerror(number));
            this.number = number;
        }
    }

    static void check(int answer) throws Answer {
        if (answer != 0) {
            throw new Answer(answer);
        }
    }

    /** Seals the text as message 7. */
    static byte[] sealed(byte[] text) throws Answer {
        Session session = new Session();
        session.mode = KRB_PRIV;
        session.first = 7;
        session.sender.set(10, 0, 0, 1);
        Handle sealer = new Handle();
        check(CALLS.krbrelay_sealer_new(sealer, ETYPE, KEY, new NativeLong(KEY.length), session));
        try {
            byte[] frame = new byte[CALLS.krbrelay_frame_size(new NativeLong(text.length)).intValue()];
            NativeLongByReference size = new NativeLongByReference();
            check(CALLS.krbrelay_sealer_seal_now(sealer, text, new NativeLong(text.length), frame,
                                                 new NativeLong(frame.length), size));
            return Arrays.copyOf(frame, size.getValue().intValue());
        } finally {
            CALLS.krbrelay_sealer_free(sealer);
        }
    }

    /** Opens the frame as message `number`. */
    static byte[] opened(byte[] frame, long number) throws Answer {
        Expect expect = new Expect();
        expect.mode = KRB_PRIV;
        expect.sender.set(10, 0, 0, 1);
        expect.receiver.set(10, 0, 0, 255);
        expect.require_time = 1;
        expect.skew = 300;
        Handle opener = new Handle();
        check(CALLS.krbrelay_opener_new(opener, ETYPE, KEY, new NativeLong(KEY.length), expect));
        try {
            Moment now = new Moment();
            check(CALLS.krbrelay_now(now));
            byte[] text = new byte[frame.length];
            NativeLongByReference size = new NativeLongByReference();
            check(CALLS.krbrelay_opener_unseal(opener, frame, new NativeLong(frame.length), number, now, text,
                                               new NativeLong(text.length), size));
            return Arrays.copyOf(text, size.getValue().intValue());
        } finally {
            CALLS.krbrelay_opener_free(opener);
        }
    }

    public static void main(String[] words) throws Answer {
        byte[] frame = sealed("hello".getBytes(StandardCharsets.US_ASCII));
        System.out.println("message 7: " + new String(opened(frame, 7), StandardCharsets.US_ASCII));
        try {
            opened(frame, 8);       // the same frame isn't message 8
        } catch (Answer answer) {
            System.out.println("open: " + answer.getMessage());
        }
    }
}
