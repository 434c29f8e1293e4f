"""Certificates of an authority, by the program openssl."""

import ssl
import subprocess
from pathlib import Path

KEY = ("-newkey", "ec", "-pkeyopt", "ec_paramgen_curve:P-256", "-nodes")


def openssl(*words: str | Path) -> None:
    """Runs openssl."""
    subprocess.run(["openssl", *map(str, words)], capture_output=True, check=True)


class Authority:
    """An authority and what it has signed, in a folder."""

    def __init__(self, folder: Path, name: str = "ca") -> None:
        self.folder, self.name = folder, name
        self.ca, self.key = folder / f"{name}.crt", folder / f"{name}.key"
        how = ("-x509", *KEY, "-days", "2", "-subj", "/CN=Authority of trials")
        openssl("req", *how, "-keyout", self.key, "-out", self.ca)

    def certificate(self, name: str, usage: str = "clientAuth") -> tuple[Path, Path]:
        """A certificate with this name, and its key."""
        stem = f"{self.name}-{name.replace('/', '_')}"
        made, key = self.folder / f"{stem}.crt", self.folder / f"{stem}.key"
        if made.exists():
            return made, key
        request, more = self.folder / f"{stem}.csr", self.folder / f"{stem}.ext"
        names = "subjectAltName=IP:127.0.0.1,DNS:localhost" if usage == "serverAuth" else ""
        more.write_text(f"extendedKeyUsage={usage}\n{names}\n", encoding="ascii")
        openssl("req", *KEY, "-subj", f"/CN={name}", "-keyout", key, "-out", request)
        by = ("-CA", self.ca, "-CAkey", self.key, "-CAcreateserial", "-days", "1")
        openssl("x509", "-req", "-in", request, *by, "-extfile", more, "-out", made)
        return made, key

    def client(self, name: str = "", of: "Authority | None" = None) -> ssl.SSLContext:
        """A client's side, with a certificate of this name, by another authority or by none."""
        context = ssl.create_default_context(cafile=self.ca)
        if name:
            made, key = (of or self).certificate(name)
            context.load_cert_chain(made, key)
        return context
