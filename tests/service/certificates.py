"""Certificates for members and clients, made by openssl, of a certificate authority that is gone when the test ends."""
import os
import shutil
import subprocess

FOR = "subjectAltName={}\nextendedKeyUsage=serverAuth,clientAuth\n"


class NoOpenssl(Exception):
    """There is no openssl here."""


class Authority:
    """Signs certificates in a folder. `ca` is its own."""

    def __init__(self, folder):
        if not shutil.which("openssl"):
            raise NoOpenssl("there is no openssl")
        self.folder, self.ca, self.ca_key = folder, f"{folder}/ca.pem", f"{folder}/ca.key"
        os.makedirs(folder, exist_ok=True)
        self.openssl("req", "-x509", *NEW, "-days", "2", "-subj", "/CN=tests", "-keyout", self.ca_key, "-out", self.ca)

    @staticmethod
    def openssl(*words):
        ran = subprocess.run(["openssl", *words], capture_output=True, text=True)
        if ran.returncode:
            raise RuntimeError(f"openssl {' '.join(words)}: {ran.stderr[-500:]}")

    def sign(self, name, hosts="IP:127.0.0.1,DNS:localhost"):
        """A certificate of this name for these hosts, and its key."""
        base = f"{self.folder}/{name}"
        with open(f"{base}.ext", "w", encoding="utf-8") as text:
            text.write(FOR.format(hosts))
        self.openssl("req", *NEW, "-subj", f"/CN={name}", "-keyout", f"{base}.key", "-out", f"{base}.csr")
        self.openssl("x509", "-req", "-in", f"{base}.csr", "-CA", self.ca, "-CAkey", self.ca_key, "-CAcreateserial", "-days", "2",
                     "-extfile", f"{base}.ext", "-out", f"{base}.pem")
        return f"{base}.pem", f"{base}.key"


NEW = ["-newkey", "ec", "-pkeyopt", "ec_paramgen_curve:prime256v1", "-nodes"]
