/* The runner of the JDK, sun.security.krb5.KrbSafe and KrbPriv, by reflection. Its clock is the system's: run it under
 * faketime at the suite's moment. The time is compared where present; a demand to ignore it can't be given.
 *   javac Jdk.java
 *   faketime -f '@2023-11-14 22:13:20 x0.001' java --add-opens java.security.jgss/sun.security.krb5=ALL-UNNAMED
 *       --add-opens java.security.jgss/sun.security.krb5.internal=ALL-UNNAMED Jdk */
import java.io.*;
import java.lang.reflect.*;
import java.util.*;

public class Jdk {
    static final String P = "sun.security.krb5.";
    static Class<?> c(String n) throws Exception { return Class.forName(P + n); }

    static Object make(String name, Class<?>[] types, Object... of) throws Exception {
        Constructor<?> k = c(name).getDeclaredConstructor(types);
        k.setAccessible(true);
        return k.newInstance(of);
    }

    static Object host(String s) throws Exception {
        if (s.equals("-")) return null;
        int colon = s.indexOf(':');
        return make("internal.HostAddress", new Class<?>[] { int.class, byte[].class },
                    Integer.parseInt(s.substring(0, colon)), HexFormat.of().parseHex(s.substring(colon + 1)));
    }

    public static void main(String[] args) throws Exception {
        BufferedReader in = new BufferedReader(new InputStreamReader(System.in));
        PrintStream out = new PrintStream(new FileOutputStream(FileDescriptor.out), true);
        Field unsafe = Class.forName("sun.misc.Unsafe").getDeclaredField("theUnsafe");
        unsafe.setAccessible(true);
        Object credentials = ((sun.misc.Unsafe) unsafe.get(null)).allocateInstance(c("Credentials"));  // its client is read, and not used
        long at = args.length > 0 ? Long.parseLong(args[0]) : 1700000000L;
        for (String line; (line = in.readLine()) != null; ) {
            String[] f = line.split("\t", -1);
            StringBuilder told = new StringBuilder(f[0] + "\t");
            String[] messages = f[14].split(",");
            boolean can = !f[7].equals("0") && f[10].equals("300") && Long.parseLong(f[8]) == at;
            Object sender = null, receiver = null, key = null, number = null;
            try {
                sender = host(f[4]);
                receiver = f[6].equals("1") ? host(f[5]) : null;
                key = make("EncryptionKey", new Class<?>[] { int.class, byte[].class }, Integer.parseInt(f[2]), HexFormat.of().parseHex(f[3]));
                if (!f[11].equals("-")) {
                    number = make("internal.LocalSeqNumber", new Class<?>[] { int.class }, Integer.parseUnsignedInt(f[11]));
                }
            } catch (InvocationTargetException e) {
                can = false;
            }
            for (int i = 0; i < messages.length; i++) {
                String verdict = "na";
                if (can) {
                    byte[] m = messages[i].equals(".") ? new byte[0] : HexFormat.of().parseHex(messages[i]);
                    try {
                        Object got = make(f[1].equals("safe") ? "KrbSafe" : "KrbPriv", new Class<?>[] { byte[].class, c("Credentials"),
                            c("EncryptionKey"), c("internal.SeqNumber"), c("internal.HostAddress"), c("internal.HostAddress"),
                            boolean.class, boolean.class }, m, credentials, key, number, sender, receiver, f[7].equals("2"), number != null);
                        Method get = got.getClass().getDeclaredMethod("getData");
                        get.setAccessible(true);
                        verdict = "ok:" + HexFormat.of().formatHex((byte[]) get.invoke(got));
                    } catch (InvocationTargetException e) {
                        Throwable t = e.getCause();
                        verdict = "no:" + (c("KrbException").isInstance(t) && !c("Asn1Exception").isInstance(t)
                            ? c("KrbException").getMethod("returnCode").invoke(t) : t.getClass().getSimpleName());
                        if (t instanceof Error) verdict = "crash:" + t.getClass().getSimpleName();
                    }
                }
                told.append(i > 0 ? "," : "").append(verdict);
            }
            out.println(told);
        }
    }
}
