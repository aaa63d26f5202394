"""Who a caller is, by certificates that openssl makes: an organisation speaks for itself alone."""
import base64
import datetime
import pathlib
import ssl
import subprocess
import tempfile
import unittest
from typing import Any
from unittest import mock

import support
from aiohttp.test_utils import make_mocked_request
from cryptography import x509
from cryptography.hazmat.primitives import hashes, serialization
from cryptography.hazmat.primitives.asymmetric import ec
from cryptography.x509.oid import NameOID
from multidict import CIMultiDict
from regtuma.access import Access
from regtuma.config import Config
from regtuma.fields import CERTIFICATE_HEADER

AUTHORITY = "basicConstraints=critical,CA:true"


class Certificates:
    """Makes certificates in a folder."""

    def __init__(self, room: pathlib.Path):
        self.room = room

    def make(self, name: str, subject: str, by: str = "", extension: str = "basicConstraints=critical,CA:false", key: str = "ec") -> None:
        """One of this name, signed by another one or by itself."""
        kind = [key, "-pkeyopt", "ec_paramgen_curve:P-256"] if key == "ec" else [key]
        signed = ["-CA", f"{by}.pem", "-CAkey", f"{by}.key"] if by else []
        words = ["openssl", "req", "-x509", "-newkey", *kind, "-nodes", "-keyout", f"{name}.key", *signed, "-subj", subject, "-addext", extension, "-addext", "subjectAltName=IP:127.0.0.1",
                 "-out", f"{name}.pem"]
        subprocess.run(words, cwd=self.room, check=True, stderr=subprocess.DEVNULL)


    def respell(self, name: str, signer: str, by: str) -> None:
        """One of a node, by an authority that spells the organisation of its own name so."""
        authority = x509.load_pem_x509_certificate((self.room / f"{by}.pem").read_bytes())
        key = serialization.load_pem_private_key((self.room / f"{by}.key").read_bytes(), None)
        assert isinstance(key, ec.EllipticCurvePrivateKey)
        own = [it if it.oid != NameOID.ORGANIZATION_NAME else x509.NameAttribute(it.oid, signer) for it in authority.subject]
        subject = [*authority.subject.get_attributes_for_oid(NameOID.ORGANIZATION_NAME), x509.NameAttribute(NameOID.COMMON_NAME, "node")]
        begin = authority.not_valid_before
        # Debian's stubs do not know all that a key can do.
        made: Any = ec.generate_private_key(ec.SECP256R1())
        unsigned = x509.CertificateBuilder(x509.Name(own), x509.Name(subject), made.public_key(), x509.random_serial_number(), begin,
                                           begin + datetime.timedelta(days=1))
        form, kind, secret = serialization.Encoding.PEM, serialization.PrivateFormat.PKCS8, serialization.NoEncryption()
        (self.room / f"{name}.pem").write_bytes(unsigned.sign(key, hashes.SHA256()).public_bytes(form))
        (self.room / f"{name}.key").write_bytes(made.private_bytes(form, kind, secret))


def made(room: pathlib.Path) -> None:
    """The authorities of Maker and Shop, and those who call. The Shop's authority may make others."""
    certificates = Certificates(room)
    for name, organisation in (("maker", "Maker"), ("shop", "Shop")):
        certificates.make(name, f"/O={organisation}/CN={organisation} authority", extension=AUTHORITY)
    certificates.make("rsa", "/O=Depot/CN=Depot authority", extension=AUTHORITY, key="rsa:2048")
    certificates.make("edwards", "/O=Depot/CN=Depot authority", extension=AUTHORITY, key="ed25519")
    certificates.make("alice", "/O=Maker/CN=alice", by="maker")
    certificates.make("bob", "/O=Shop/CN=bob", by="shop")
    certificates.make("carol", "/O=Depot/CN=carol", by="rsa")
    certificates.make("dave", "/O=Depot/CN=dave", by="edwards")
    certificates.make("forged", "/O=Maker/CN=alice", by="shop")
    certificates.make("likewise", "/O=Maker/CN=alice", by="rsa")
    certificates.make("between", "/O=Maker/CN=Maker authority", by="shop", extension=AUTHORITY)
    certificates.make("mallory", "/O=Maker/CN=alice", by="between")
    certificates.make("nameless", "/O=Maker", by="maker")
    certificates.make("both", "/O=Shop/O=Maker/CN=alice", by="maker")
    certificates.make("stranger", "/O=Maker/CN=alice")


class Callers(unittest.TestCase):
    access: Access

    @classmethod
    def setUpClass(cls):
        folder = tempfile.TemporaryDirectory()
        cls.addClassCleanup(folder.cleanup)
        cls.room = pathlib.Path(folder.name)
        made(cls.room)
        (cls.room / "depot.pem").write_text("".join((cls.room / it).read_text() for it in ("rsa.pem", "edwards.pem")))
        authorities = {it: str(cls.room / f"{it.lower()}.pem") for it in ("Maker", "Shop", "Depot")}
        config = mock.Mock(spec=Config, authorities=authorities, is_local=False)
        config._trusting = lambda *words: Config._trusting(config, *words)
        config.authority_certificates = lambda: Config.authority_certificates(config)
        cls.access = Access(config, mock.Mock())

    def named(self, certificate: str) -> str | None:
        return self.access.caller(make_mocked_request("GET", "/", headers={CERTIFICATE_HEADER: certificate}))

    def test_an_organisation_speaks_for_itself_alone(self):
        for name, caller in [("alice", "Maker/alice"), ("bob", "Shop/bob"), ("carol", "Depot/carol"), ("dave", "Depot/dave"),
                             *((it, None) for it in ("forged", "likewise", "mallory", "nameless", "both", "stranger", "maker"))]:
            with self.subTest(name=name):
                found = ssl.PEM_cert_to_DER_cert((self.room / f"{name}.pem").read_text())
                self.assertEqual(self.named(base64.b64encode(found).decode()), caller)

    def test_two_certificates_name_nobody(self):
        """What followed a body in chunks comes as the first header of the connection's next request."""
        alice, bob = (base64.b64encode(ssl.PEM_cert_to_DER_cert((self.room / f"{it}.pem").read_text())).decode() for it in ("alice", "bob"))
        for first, second in ((alice, bob), (bob, alice), (alice, alice)):
            headers = CIMultiDict([(CERTIFICATE_HEADER, first), (CERTIFICATE_HEADER.lower(), second)])
            self.assertIsNone(self.access.caller(make_mocked_request("GET", "/", headers=headers)))

    def test_a_certificate_that_nobody_reads_names_nobody(self):
        """Of a version that has no extensions, which TLS takes all the same, or with a name that is no text."""
        found = ssl.PEM_cert_to_DER_cert((self.room / "alice.pem").read_text())
        for old, new in ((b"\xa0\x03\x02\x01\x02", b"\xa0\x03\x02\x01\x01"), (b"\x0c\x05alice", b"\x05\x05alice")):
            with self.subTest(new=new):
                self.assertEqual(found.count(old), 1)
                self.assertIsNone(self.named(base64.b64encode(found.replace(old, new)).decode()))

    def test_what_is_no_certificate_names_nobody(self):
        for it in ("", "x", "AAAA", "\u00ff", base64.b64encode(b"0" * 1000).decode()):
            self.assertIsNone(self.named(it))


if __name__ == "__main__":
    unittest.main()
