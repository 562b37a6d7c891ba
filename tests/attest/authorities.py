"""Authorities that certify endorsement keys, as the makers of TPMs do, or who claim to be one."""

import subprocess


class Authority:
    """An authority, with a certificate of its own or, if there is one above it, by that."""

    def __init__(self, folder, name, above=None, bits=2048):
        self.key, self.certificate = folder / f"{name}.key", folder / f"{name}.crt"
        by = ["-CA", above.certificate, "-CAkey", above.key] if above else []
        subprocess.run(["openssl", "req", "-x509", "-newkey", f"rsa:{bits}", "-nodes", "-subj", f"/CN={name}", "-days", "2",
                        "-keyout", self.key, "-out", self.certificate, *by], check=True, capture_output=True)

    def certify(self, public, days=2, subject="/CN=TPM", hashed="sha256"):
        """The certificate of a TPM with this endorsement key."""
        words = ["openssl", "x509", "-new", "-force_pubkey", public, "-subj", subject, "-days", str(days), "-outform", "der"]
        return subprocess.run([*words, f"-{hashed}", "-CA", self.certificate, "-CAkey", self.key], check=True, capture_output=True).stdout
