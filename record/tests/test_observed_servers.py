"""Servers: who speaks to a process of another command, or of none, has a flag with the server's address; who started a
server that answers later commands has one, too."""

import contextlib
import pathlib
import socket
import threading
import unittest

import observed_2
from observing import WithRoom

SERVER = """import os, socket, sys, time
if os.fork():
    while not os.path.exists("ready"):
        time.sleep(0.05)
    sys.exit()
null = os.open("/dev/null", os.O_RDWR)
for it in range(3):
    os.dup2(null, it)
listening = socket.socket(socket.AF_UNIX)
listening.bind("sock")
listening.listen()
open("ready", "w").close()
said = b""
while said != b"stop":
    connection = listening.accept()[0]
    said = connection.recv(99)
    open("log", "a").write(said.decode())
    connection.send(b"answer")
    connection.close()
"""
CLIENT = """import socket, sys
address, said = sys.argv[1:]
host, _, port = address.partition(":")
kind = socket.AF_INET if port else socket.AF_UNIX
with socket.socket(kind) as it:
    if it.connect_ex((host, int(port)) if port else address.replace("@", chr(0))) == 0:
        it.send(said.encode())
        it.recv(99)
"""
ALONE = """import os, socket
with socket.socket(socket.AF_UNIX) as one, socket.socket(socket.AF_UNIX) as other:
    one.bind("alone")
    one.listen()
    other.connect(os.path.abspath("alone"))
os.unlink("alone")
"""
MANIFEST = """rule c
  command = $cmd && : > $out
build start: c
  cmd = python3 -S server.py
build there: c | start
  cmd = cd sub && python3 -S ../client.py ../sock said
build stop: c | there
  cmd = python3 -S client.py {folder}/sock stop
build none: c | stop
  cmd = python3 -S client.py sub/nothing said
build alone_out: c | none
  cmd = python3 -S alone.py
build refused: c | alone_out
  cmd = python3 -S client.py 127.0.0.1:1 said
build loopback: c | refused
  cmd = python3 -S client.py 127.0.0.1:{port} said
build abstract: c | loopback
  cmd = python3 -S client.py @{name} said
"""
FILES = {"server.py": SERVER, "client.py": CLIENT, "alone.py": ALONE, "sub/x": ""}


@contextlib.contextmanager
def answering(family: int, address: object):
    """A server of nobody's build, which answers until the end."""
    with socket.socket(family) as it:
        it.bind(address)
        it.listen()

        def answer():
            with contextlib.suppress(OSError):
                while True:
                    with it.accept()[0] as connection:
                        connection.recv(99)
                        connection.send(b"answer")

        threading.Thread(target=answer, daemon=True).start()
        try:
            yield it.getsockname()
        finally:
            it.shutdown(socket.SHUT_RDWR)


class Servers(WithRoom):
    @classmethod
    def setUpClass(cls):
        super().setUpClass()
        name = cls.room.path.name
        with answering(socket.AF_INET, ("127.0.0.1", 0)) as (_, port), answering(socket.AF_UNIX, f"\0{name}"):
            cls.tcp, cls.abstract = b"127.0.0.1:%d" % port, f"@{name}".encode()

            def write(folder: pathlib.Path) -> None:
                text = MANIFEST.format(port=port, name=name, folder=folder)
                (folder / "build.ninja").write_text(text)

            found = cls.room.build(cls.observer, "", FILES, words=("-j", "1"), read=False, before=write)
        assert found.status == 0, found.said
        cls.said = found.said
        cls.blocks = observed_2.read(found.out / "observed").blocks

    def flags(self, name: str) -> list[tuple[bytes, ...]]:
        return self.blocks[name.encode()].flags

    def test_a_file_is_one_address_however_it_is_written(self):
        for name in ("there", "stop"):
            self.assertEqual(self.flags(name), [(b"socket", b"connect", b"python3", b"sock")])
            self.assertTrue(self.blocks[name.encode()].has("there", b"sock"))

    def test_who_started_the_server_is_named(self):
        self.assertEqual(sorted(self.flags("start")), [(b"late", b"connect", b"python3", b"sock"),
                                                       (b"late", b"openat", b"python3", b"log"),
                                                       (b"socket", b"bind", b"python3", b"sock")])
        self.assertIn("2 commands spoke to a server that start started, at sock: there, stop.", self.said)

    def test_a_server_that_was_there_before_the_build(self):
        for name, address in (("loopback", self.tcp), ("abstract", self.abstract)):
            self.assertEqual(self.flags(name), [(b"socket", b"connect", b"python3", address)])
            self.assertIn("1 command spoke to a server that no command of this build started, at "
                          f"{address.decode()}: {name}.", self.said)

    def test_a_server_that_is_not_there_is_a_vain_look(self):
        self.assertEqual(self.flags("none"), [])
        self.assertNotIn("at sub/nothing", self.said)

    def test_a_connection_that_was_refused(self):
        self.assertEqual(self.flags("refused"), [(b"socket", b"connect", b"python3", b"127.0.0.1:1")])
        self.assertNotIn("at 127.0.0.1:1:", self.said)

    def test_a_server_of_the_commands_own(self):
        self.assertEqual(self.flags("alone_out"), [])


class ByTheOwnObserver(Servers, unittest.TestCase):
    observer = "own"


class ByStrace(Servers, unittest.TestCase):
    observer = "strace"


if __name__ == "__main__":
    unittest.main()
