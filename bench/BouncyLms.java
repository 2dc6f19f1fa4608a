import java.security.SecureRandom;
import org.bouncycastle.pqc.crypto.lms.LMOtsParameters;
import org.bouncycastle.pqc.crypto.lms.LMSKeyGenerationParameters;
import org.bouncycastle.pqc.crypto.lms.LMSKeyPairGenerator;
import org.bouncycastle.pqc.crypto.lms.LMSParameters;
import org.bouncycastle.pqc.crypto.lms.LMSPrivateKeyParameters;
import org.bouncycastle.pqc.crypto.lms.LMSPublicKeyParameters;
import org.bouncycastle.pqc.crypto.lms.LMSigParameters;
import org.bouncycastle.pqc.crypto.lms.LMSSigner;
import org.bouncycastle.crypto.AsymmetricCipherKeyPair;

/** Times Bouncy Castle's LMS at h = 10, w = 8: the root, a signature and a verdict. */
public class BouncyLms {
    static final int ROUNDS = 200;

    public static void main(String[] args) throws Exception {
        for (int run = 0; run < 2; run++) {
            once();
        }
    }

    static void once() throws Exception {
        LMSKeyPairGenerator generator = new LMSKeyPairGenerator();
        generator.init(new LMSKeyGenerationParameters(
            new LMSParameters(LMSigParameters.lms_sha256_n32_h10, LMOtsParameters.sha256_n32_w8), new SecureRandom()));
        long start = System.nanoTime();
        AsymmetricCipherKeyPair pair = generator.generateKeyPair();
        LMSPublicKeyParameters root = (LMSPublicKeyParameters) pair.getPublic();
        root.getEncoded();
        say("root", start, 1);

        byte[] message = "the bridge opens at noon".getBytes("US-ASCII");
        LMSSigner signer = new LMSSigner();
        signer.init(true, (LMSPrivateKeyParameters) pair.getPrivate());
        byte[][] signatures = new byte[ROUNDS][];
        start = System.nanoTime();
        for (int i = 0; i < ROUNDS; i++) {
            signatures[i] = signer.generateSignature(message);
        }
        say("sign", start, ROUNDS);

        LMSSigner verifier = new LMSSigner();
        verifier.init(false, root);
        boolean all = true;
        start = System.nanoTime();
        for (int i = 0; i < ROUNDS; i++) {
            all &= verifier.verifySignature(message, signatures[i]);
        }
        say("verify", start, ROUNDS);
        if (!all) {
            throw new IllegalStateException("a signature was refused");
        }
    }

    static void say(String what, long start, int rounds) {
        System.out.printf("%s %.6f s%n", what, (System.nanoTime() - start) / 1e9 / rounds);
    }
}
