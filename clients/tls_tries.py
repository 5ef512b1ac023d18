#!/usr/bin/python3
"""Tries the router behind stunnel, which ends TLS in front of it (Debian: python3-qpid-proton, stunnel4, openssl).

tls_tries.py HOST:PORT starts stunnel with examples/operating/stunnel.conf, of which it changes the ports and the names of files alone,
makes a connection for each try, and prints a line for it; its status is 1 where one did not end as it should.
tls_tries.py --connections prints how many of them reach the router.
"""
import os
import shutil
import socket
import subprocess
import sys
import tempfile
import time

from proton import Message, SSLDomain
from proton.reactor import Container
from proton_tries import Try

HERE = os.path.dirname(os.path.realpath(__file__))
CONF = os.path.join(HERE, "..", "examples", "operating", "stunnel.conf")


def openssl(folder, *words):
    """Runs openssl there; what it says is shown where it fails."""
    ran = subprocess.run(["openssl", *words], cwd=folder, capture_output=True, text=True)
    if ran.returncode != 0:
        sys.exit(f"tls_tries: openssl {words[0]}: {ran.stderr}")


def make_authority(folder, name):
    """One who signs certificates: NAME.pem and NAME.key."""
    openssl(folder, "req", "-x509", "-newkey", "rsa:2048", "-nodes", "-days", "2", "-subj", f"/CN={name}",
            "-keyout", f"{name}.key", "-out", f"{name}.pem")


def make_signed(folder, name, subject, authority):
    """A certificate of this subject, NAME.pem with NAME.key, signed by the authority."""
    openssl(folder, "req", "-new", "-newkey", "rsa:2048", "-nodes", "-subj", f"/CN={subject}",
            "-addext", f"subjectAltName=DNS:{subject}", "-keyout", f"{name}.key", "-out", f"{name}.request")
    openssl(folder, "x509", "-req", "-days", "2", "-in", f"{name}.request", "-copy_extensions", "copy",
            "-CA", f"{authority}.pem", "-CAkey", f"{authority}.key", "-CAcreateserial", "-out", f"{name}.pem")


def make_certificates(folder):
    """Of the server, of a client whom its authority knows, and of a stranger."""
    for authority in ("servers", "clients", "strangers"):
        make_authority(folder, authority)
    make_signed(folder, "server", "localhost", "servers")
    make_signed(folder, "client", "client", "clients")
    make_signed(folder, "stranger", "stranger", "strangers")


def free_port():
    with socket.socket() as found:
        found.bind(("127.0.0.1", 0))
        return found.getsockname()[1]


def configured(folder, port, router):
    """The example, with ports and files of this run."""
    with open(CONF) as it:
        text = it.read()
    changes = {"accept = 0.0.0.0:5671": f"accept = 127.0.0.1:{port}", "connect = 127.0.0.1:5672": f"connect = {router}"}
    for old, new in changes.items():
        if text.count(f"\n{old}\n") != 1:
            sys.exit(f"tls_tries: the example has no line {old}")
        text = text.replace(f"\n{old}\n", f"\n{new}\n")
    with open(f"{folder}/stunnel.conf", "w") as it:
        it.write(text.replace("/etc/amqp/", f"{folder}/"))
    return f"{folder}/stunnel.conf"


def wait_for(port):
    """Until somebody listens there. A connection that is tried is none to the router: it ends before the TLS stands."""
    for _ in range(100):
        with socket.socket() as tried:
            if tried.connect_ex(("127.0.0.1", port)) == 0:
                return
        time.sleep(0.1)
    sys.exit("tls_tries: stunnel does not listen")


class Secured(Try):
    """A connection over TLS, of one who looks at the server's certificate."""

    shows = None

    def __init__(self, url, folder):
        super().__init__(url)
        self.domain = SSLDomain(SSLDomain.MODE_CLIENT)
        self.domain.set_trusted_ca_db(f"{folder}/servers.pem")
        self.domain.set_peer_authentication(SSLDomain.VERIFY_PEER_NAME)
        if self.shows is not None:
            self.domain.set_credentials(f"{folder}/{self.shows}.pem", f"{folder}/{self.shows}.key", None)
        self.options = {"ssl_domain": self.domain}

    def begin(self, event):
        self.receiver = event.container.create_receiver(self.connection, "secured")
        self.receiver.flow(10)
        self.sender = event.container.create_sender(self.connection, "secured")
        self.has_sent = False

    def on_sendable(self, event):
        if not self.has_sent:
            self.has_sent = True
            event.sender.send(Message(body="s" * 40000))

    def on_message(self, event):
        self.said.append(len(event.message.body))
        self.accept(event.delivery)

    def on_accepted(self, event):
        self.said.append("accepted")
        self.end()

    def on_transport_error(self, event):
        self.said.append("turned away")
        self.timer.cancel()


class KnownClient(Secured):
    """One whose certificate is known sends, receives and hears the outcome."""

    shows, wanted = "client", [40000, "accepted"]


class NoCertificate(Secured):
    """One without a certificate is turned away, and the router does not hear of him."""

    wanted = ["turned away"]


class Stranger(Secured):
    """One whose certificate somebody else has signed is turned away too."""

    shows, wanted = "stranger", ["turned away"]


# The last one reaches the router, which then has served all that it serves.
TRIES = [NoCertificate, Stranger, KnownClient]


def run_tries(url, folder):
    """How many of them are wrong."""
    wrong = 0
    for kind in TRIES:
        tried = kind(url, folder)
        Container(tried).run()
        is_well = tried.said == kind.wanted
        wrong += not is_well
        print(f"{kind.__name__}: {'as it should' if is_well else f'said {tried.said[:8]}, not {kind.wanted}'}", flush=True)
    return wrong


def main():
    if sys.argv[1] == "--connections":
        print(1)
        return 0
    folder, port = tempfile.mkdtemp(), free_port()
    make_certificates(folder)
    stunnel = subprocess.Popen(["stunnel4", configured(folder, port, sys.argv[1])], stderr=subprocess.DEVNULL)
    try:
        wait_for(port)
        return 1 if run_tries(f"amqps://localhost:{port}", folder) else 0
    finally:
        stunnel.terminate()
        stunnel.wait()
        shutil.rmtree(folder)


if __name__ == "__main__":
    sys.exit(main())
