"""Which certificates OpenSSL reads of another side, by node/certificates.c: those whose keys take it no time."""
import base64
import ctypes
import datetime
import random
import shutil
import ssl
import unittest

from cryptography import x509
from cryptography.hazmat.primitives import hashes, serialization
from cryptography.hazmat.primitives.asymmetric import dsa, ec, ed448, ed25519, rsa

import support

# A key of the algorithm SM2 on P-224, of one coordinate, which takes OpenSSL a millisecond to read.
SM2 = ("MG0wYgIBATAEBgIqAzAAMB4XDTI1MDEwMTAwMDAwMFoXDTM1MDEwMTAwMDAwMFowADAzMBEGCCqBHM9VAYItBgUrgQQAIQMeAAJ0AHy0fMZh6XWJykoHwVRx"
       "pFF9bGaU8ik1mxVIMAQGAioDAwEA")
ODD = 2 ** 4095 + 1


def rsa_key(exponent: int, modulus: int = ODD) -> rsa.RSAPublicKey:
    return rsa.RSAPublicNumbers(exponent, modulus).public_key()


def certificate(key) -> bytes:
    """A certificate of a key, which another one signed."""
    name, now = x509.Name([x509.NameAttribute(x509.NameOID.ORGANIZATION_NAME, "Maker")]), datetime.datetime(2026, 12, 1)
    made = x509.CertificateBuilder(name, name, key, 7, now, now + datetime.timedelta(1))
    return made.sign(ec.generate_private_key(ec.SECP256R1()), hashes.SHA256()).public_bytes(serialization.Encoding.DER)


@unittest.skipUnless(shutil.which("clang"), "no clang")
class Keys(unittest.TestCase):
    library: ctypes.CDLL

    @classmethod
    def setUpClass(cls):
        # OpenSSL, in which it looks for what reads them.
        cls.loaded = ssl.create_default_context()
        cls.library = ctypes.CDLL(str(support.preload()))
        cls.library.d2i_X509.restype = ctypes.c_void_p

    def is_read(self, certificate: bytes) -> bool:
        text = ctypes.create_string_buffer(certificate, len(certificate))
        at = ctypes.cast(text, ctypes.c_void_p)
        return self.library.d2i_X509(None, ctypes.byref(at), ctypes.c_long(len(certificate))) is not None

    def test_keys_that_take_no_time_are_read(self):
        for key in (ec.generate_private_key(ec.SECP256R1()).public_key(), ed25519.Ed25519PrivateKey.generate().public_key(),
                    rsa_key(65_537), rsa_key(65_537, 2 ** 2047 + 1)):
            self.assertTrue(self.is_read(certificate(key)), key)

    def test_other_keys_are_not(self):
        curves = (ec.SECP224R1(), ec.SECP384R1(), ec.SECP521R1(), ec.SECP256K1(), ec.BrainpoolP512R1())
        long = (rsa_key(3), rsa_key(2 ** 4000 + 1), rsa_key(65_537, 2 ** 4103 + 1), dsa.generate_private_key(1024).public_key())
        for key in (*(ec.generate_private_key(it).public_key() for it in curves), ed448.Ed448PrivateKey.generate().public_key(), *long):
            self.assertFalse(self.is_read(certificate(key)), key)
        for spelled in (SM2, support.SLOW):
            self.assertFalse(self.is_read(base64.b64decode(spelled)))

    def test_bytes_that_are_no_certificate_are_not(self):
        chosen = random.Random(8)
        made = certificate(ec.generate_private_key(ec.SECP256R1()).public_key())
        for end in range(len(made)):
            self.assertFalse(self.is_read(made[:end]))
        for _ in range(2000):
            changed = bytearray(made)
            changed[chosen.randrange(24)] = chosen.randrange(256)
            self.is_read(bytes(changed))


if __name__ == "__main__":
    unittest.main()
