/* The runner of ApacheDS's Kerberos codec: it reads both messages and opens the enciphered part, and compares neither the
 * checksum of KRB-SAFE, addresses, times nor numbers.
 * implementations.toml says how it is compiled (Debian: libapacheds-kerberos-codec-java, libapache-directory-api-java). */
import java.io.*;
import java.lang.reflect.Method;
import java.nio.ByteBuffer;
import java.util.*;
import org.apache.directory.server.kerberos.shared.crypto.encryption.*;
import org.apache.directory.shared.kerberos.codec.KerberosDecoder;
import org.apache.directory.shared.kerberos.codec.krbSafe.KrbSafeContainer;
import org.apache.directory.shared.kerberos.codec.types.EncryptionType;
import org.apache.directory.shared.kerberos.components.EncryptionKey;
import org.apache.directory.shared.kerberos.messages.KrbPriv;
import org.apache.directory.api.asn1.ber.*;

public class ApacheDs {
    static String verdict(String[] f, byte[] m) {
        try {
            if (f[1].equals("safe")) {
                ByteBuffer stream = ByteBuffer.wrap(m);
                KrbSafeContainer c = new KrbSafeContainer(stream);
                decode(stream, c);
                if (c.getState() != org.apache.directory.api.asn1.ber.tlv.TLVStateEnum.PDU_DECODED) return "no:incomplete";
                return "ok:" + HexFormat.of().formatHex(c.getKrbSafe().getSafeBody().getUserData());
            }
            KrbPriv p = KerberosDecoder.decodeKrbPriv(m);
            EncryptionKey key = new EncryptionKey(EncryptionType.getTypeByValue(Integer.parseInt(f[2])), HexFormat.of().parseHex(f[3]));
            byte[] part = new CipherTextHandler().decrypt(key, p.getEncPart(), KeyUsage.KRB_PRIV_ENC_PART_CHOSEN_KEY);
            byte[] data = KerberosDecoder.decodeEncKrbPrivPart(part).getUserData();
            return "ok:" + (data == null ? "" : HexFormat.of().formatHex(data));
        } catch (RuntimeException | Error e) {
            return "crash:" + e.getClass().getSimpleName();
        } catch (Exception e) {
            return "no:" + e.getClass().getSimpleName();
        }
    }

    static void decode(ByteBuffer stream, Asn1Container c) throws Exception {
        Asn1Decoder.decode(stream, c);
    }

    public static void main(String[] args) throws Exception {
        BufferedReader in = new BufferedReader(new InputStreamReader(System.in));
        PrintStream out = new PrintStream(new FileOutputStream(FileDescriptor.out), true);
        for (String line; (line = in.readLine()) != null; ) {
            String[] f = line.split("\t", -1);
            StringBuilder told = new StringBuilder(f[0] + "\t");
            String[] all = f[14].split(",");
            for (int i = 0; i < all.length; i++)
                told.append(i > 0 ? "," : "").append(all.length > 1 ? "na"
                    : verdict(f, all[i].equals(".") ? new byte[0] : HexFormat.of().parseHex(all[i])));
            out.println(told);
        }
    }
}
