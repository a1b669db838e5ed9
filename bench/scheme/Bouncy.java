// keygen, encaps and decaps of Bouncy Castle's Saber, for run.py. Its keys are this library's; its ciphertexts are the
// third round's. A line each: `bouncy SET CALL LEAST MEDIAN` in nanoseconds, and `key SET PUBLIC SECRET` for the seeds
// 00 00 .., 01 01 .. and 02 02 ..
import java.security.SecureRandom;
import java.util.Arrays;
import org.bouncycastle.crypto.AsymmetricCipherKeyPair;
import org.bouncycastle.crypto.SecretWithEncapsulation;
import org.bouncycastle.pqc.crypto.saber.SABERKEMExtractor;
import org.bouncycastle.pqc.crypto.saber.SABERKEMGenerator;
import org.bouncycastle.pqc.crypto.saber.SABERKeyGenerationParameters;
import org.bouncycastle.pqc.crypto.saber.SABERKeyPairGenerator;
import org.bouncycastle.pqc.crypto.saber.SABERParameters;
import org.bouncycastle.pqc.crypto.saber.SABERPrivateKeyParameters;
import org.bouncycastle.pqc.crypto.saber.SABERPublicKeyParameters;
import org.bouncycastle.util.encoders.Hex;

public class Bouncy {
    static final int WARM = 2000, RUNS = 1001;

    // Each draw is filled with the next number: drawing costs nothing, and the keys can be compared.
    static class Counter extends SecureRandom {
        byte next = 0;

        @Override
        public void nextBytes(byte[] bytes) {
            Arrays.fill(bytes, next++);
        }
    }

    static void print(int set, String call, long[] times) {
        Arrays.sort(times);
        System.out.println("bouncy " + set + " " + call + " " + times[0] + " " + times[RUNS / 2]);
    }

    public static void main(String[] words) {
        SABERParameters[] sets = {
            SABERParameters.lightsaberkem256r3, SABERParameters.saberkem256r3, SABERParameters.firesaberkem256r3
        };
        for (int set = 1; set <= 3; set++) {
            Counter random = new Counter();
            SABERKeyPairGenerator maker = new SABERKeyPairGenerator();
            maker.init(new SABERKeyGenerationParameters(random, sets[set - 1]));
            long[] keygen = new long[RUNS], encaps = new long[RUNS], decaps = new long[RUNS];
            for (int run = -WARM; run < RUNS; run++) {
                long t0 = System.nanoTime();
                AsymmetricCipherKeyPair pair = maker.generateKeyPair();
                long t1 = System.nanoTime();
                SABERPublicKeyParameters publicKey = (SABERPublicKeyParameters) pair.getPublic();
                SABERPrivateKeyParameters secretKey = (SABERPrivateKeyParameters) pair.getPrivate();
                long t2 = System.nanoTime();
                SecretWithEncapsulation sent = new SABERKEMGenerator(random).generateEncapsulated(publicKey);
                long t3 = System.nanoTime();
                byte[] opened = new SABERKEMExtractor(secretKey).extractSecret(sent.getEncapsulation());
                long t4 = System.nanoTime();
                if (!Arrays.equals(sent.getSecret(), opened)) {
                    throw new IllegalStateException("decapsulation gave another secret");
                }
                if (run == -WARM) {
                    System.out.println("key " + set + " " + Hex.toHexString(publicKey.getPublicKey()) + " "
                        + Hex.toHexString(secretKey.getPrivateKey()));
                }
                if (run >= 0) {
                    keygen[run] = t1 - t0;
                    encaps[run] = t3 - t2;
                    decaps[run] = t4 - t3;
                }
            }
            print(set, "keygen", keygen);
            print(set, "encaps", encaps);
            print(set, "decaps", decaps);
        }
    }
}
