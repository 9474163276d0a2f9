#!/usr/bin/env python3
"""Drives the built carrier with a stand-in program that speaks its frames. Takes the carrier's path, and builds it if none is given."""
import os, pathlib, signal, socket, struct, subprocess, sys, tempfile, threading, time

HERE = pathlib.Path(__file__).resolve().parent
OPENED, DATA, ENDED, STOP = 1, 2, 3, 4


# The stand-in. Of what comes on a connection it answers each line: `close` closes; `big N` gives N bytes; `stall` gives nothing;
# `die N` exits with N; `kill` is killed; `bad` breaks the format; `where` says the number; all else is sent back. It logs frames.
def program(log):
    source, sink = sys.stdin.buffer, sys.stdout.buffer
    rest, live = {}, set()

    def send(connection, kind, data=b""):
        for start in range(0, max(len(data), 1), 65536):
            piece = data[start : start + 65536]
            sink.write(struct.pack("<IBI", connection, kind, len(piece)) + piece)
        sink.flush()

    with open(log, "a", buffering=1) as notes:
        while head := source.read(9):
            connection, kind, length = struct.unpack("<IBI", head)
            data = source.read(length)
            notes.write(f"{connection} {kind} {length}\n")
            if kind == STOP:
                assert connection == 0
                for open_one in sorted(live):
                    send(open_one, DATA, b"stopping\n")
                    send(open_one, ENDED)
                sys.exit(7)
            elif kind == OPENED:
                assert connection not in live, "opened twice"
                live.add(connection)
                rest[connection] = b""
            elif kind == ENDED:
                if connection in live:
                    live.discard(connection)
                    send(connection, ENDED)
            elif connection in live:
                *lines, rest[connection] = (rest[connection] + data).split(b"\n")
                for line in lines:
                    word, _, value = line.decode("latin1").partition(" ")
                    if word == "close":
                        send(connection, DATA, b"bye\n")
                        send(connection, ENDED)
                        live.discard(connection)
                        break
                    elif word == "big":
                        send(connection, DATA, b"x" * int(value))
                    elif word == "die":
                        sys.exit(int(value))
                    elif word == "kill":
                        os.kill(os.getpid(), signal.SIGKILL)
                    elif word == "bad":
                        send(connection, 9)
                    elif word == "where":
                        send(connection, DATA, b"%d\n" % connection)
                    elif word != "stall":
                        send(connection, DATA, line + b"\n")


class Carrier:
    """A carrier with its stand-in, behind a Unix socket."""

    def __init__(self, folder, *options, environment=None, socket_option=True, **more):
        self.path = str(folder / "socket")
        self.log = str(folder / "frames")
        words = [BINARY, *(["--socket", self.path] if socket_option else []), *options]
        words += ["--", sys.executable, __file__, "--program", self.log]
        self.process = subprocess.Popen(words, stderr=subprocess.PIPE, env={**os.environ, **(environment or {})}, **more)
        if socket_option:
            wait(lambda: os.path.exists(self.path) or self.process.poll() is not None)

    def connect(self):
        peer = socket.socket(socket.AF_UNIX)
        peer.settimeout(20)
        peer.connect(self.path)
        return peer

    def stop(self, status=7):
        self.process.send_signal(signal.SIGTERM)
        return self.ends(status)

    def ends(self, status):
        found = self.process.wait(20)
        said = self.process.stderr.read().decode()
        assert found == status, (found, status, said)
        assert not os.path.exists(self.path), "the socket is left"
        return said

    def frames(self):
        return [tuple(map(int, line.split())) for line in open(self.log)]


def wait(is_so, seconds=20):
    end = time.time() + seconds
    while not is_so():
        assert time.time() < end, "it took too long"
        time.sleep(0.01)


def ask(peer, line):
    peer.sendall(line + b"\n")
    return read_line(peer)


def read_line(peer):
    text = b""
    while not text.endswith(b"\n"):
        piece = peer.recv(1)
        if not piece:
            break
        text += piece
    return text


def read_all(peer):
    text = b""
    while piece := peer.recv(1 << 16):
        text += piece
    return text


def is_gone(peer):
    """Whether the carrier has closed the connection."""
    try:
        return peer.recv(1) == b""
    except ConnectionError:
        return True


def echo(folder):
    carrier = Carrier(folder)
    assert os.stat(carrier.path).st_mode & 0o777 == 0o600
    peer = carrier.connect()
    assert ask(peer, b"hello") == b"hello\n"
    assert ask(peer, b"close") == b"bye\n"
    assert is_gone(peer)
    # What was sent before the peer ended is answered, and the connection then closed.
    peer = carrier.connect()
    peer.sendall(b"one\ntwo\n")
    peer.shutdown(socket.SHUT_WR)
    assert read_all(peer) == b"one\ntwo\n"
    # A large answer comes whole.
    peer = carrier.connect()
    peer.sendall(b"big 1000000\nclose\n")
    assert read_all(peer) == b"x" * 1000000 + b"bye\n"
    peer.close()
    wait(lambda: sum(kind == ENDED for _, kind, _ in carrier.frames()) == 3)
    carrier.stop()
    kinds = [kind for _, kind, _ in carrier.frames()]
    assert kinds.count(OPENED) == kinds.count(ENDED) == 3 and kinds[-1] == STOP, kinds


def many(folder):
    carrier = Carrier(folder, "--connections", "300")
    peers = [carrier.connect() for _ in range(300)]
    for place, peer in enumerate(peers):
        peer.sendall(b"%d\n" % place)
    for place, peer in enumerate(peers):
        assert read_line(peer) == b"%d\n" % place
    numbers = {int(ask(peer, b"where")) for peer in peers}
    assert numbers == set(range(300))
    # One more waits until another has gone, and takes its number.
    late = carrier.connect()
    late.sendall(b"where\n")
    late.settimeout(0.5)
    try:
        late.recv(1)
        raise AssertionError("more than 300 connections")
    except TimeoutError:
        late.settimeout(20)
    gone = int(ask(peers[17], b"where"))
    peers[17].close()
    assert int(read_line(late)) == gone
    # Peers that come and go at once meet nobody else's answers.
    faults = []

    def rush(name):
        try:
            for turn in range(40):
                with carrier.connect() as peer:
                    text = b"%d-%d" % (name, turn)
                    if ask(peer, text) != text + b"\n":
                        faults.append(text)
        except Exception as fault:
            faults.append(fault)

    for peer in peers:
        peer.close()
    rushes = [threading.Thread(target=rush, args=(name,)) for name in range(20)]
    [thread.start() for thread in rushes]
    [thread.join() for thread in rushes]
    assert not faults, faults
    carrier.stop()


def slow_readers(folder):
    carrier = Carrier(folder, "--pending", "300000")
    slow = carrier.connect()
    slow.setsockopt(socket.SOL_SOCKET, socket.SO_RCVBUF, 4096)
    other = carrier.connect()
    slow.sendall(b"big 2000000\nstill\n")
    # Nobody else is held up, and the slow one is closed once too much waits for it: the program learns of it.
    assert ask(other, b"hello") == b"hello\n"
    wait(lambda: (0, ENDED, 0) in carrier.frames())
    text = read_all_or_reset(slow)
    assert len(text) < 2000000
    # What fits waits for as long as the reader takes.
    slow = carrier.connect()
    slow.sendall(b"big 200000\n")
    time.sleep(0.5)
    assert ask(other, b"hello") == b"hello\n"
    text = b""
    while len(text) < 200000:
        text += slow.recv(1000)
    carrier.stop()


def read_all_or_reset(peer):
    text = b""
    try:
        while piece := peer.recv(1 << 16):
            text += piece
    except ConnectionError:
        pass
    return text


def silent_peers(folder):
    carrier = Carrier(folder, "--silence", "2")
    silent, slow = carrier.connect(), carrier.connect()
    begin = time.time()
    # One that sends a byte a second stays, and is answered; one that says nothing is dropped, as one that never reads.
    stuck = carrier.connect()
    stuck.setsockopt(socket.SOL_SOCKET, socket.SO_RCVBUF, 4096)
    stuck.sendall(b"big 900000\n")
    for byte in b"slow\n":
        slow.sendall(bytes([byte]))
        time.sleep(1)
    assert read_line(slow) == b"slow\n"
    assert is_gone(silent)
    assert time.time() - begin < 10
    assert len(read_all_or_reset(stuck)) < 900000
    assert sum(kind == ENDED for _, kind, _ in carrier.frames()) >= 2
    carrier.stop()


def stops(folder):
    carrier = Carrier(folder)
    peers = [carrier.connect() for _ in range(5)]
    for peer in peers:
        assert ask(peer, b"hello") == b"hello\n"
    carrier.stop()
    for peer in peers:
        assert read_all(peer) == b"stopping\n"
    carrier = Carrier(folder)
    carrier.process.send_signal(signal.SIGINT)
    carrier.ends(7)


def deaths(folder):
    for word, status in ((b"die 0", 0), (b"die 3", 3), (b"kill", 128 + 9), (b"bad", 70)):
        carrier = Carrier(folder)
        peer, other = carrier.connect(), carrier.connect()
        assert ask(other, b"hello") == b"hello\n"
        peer.sendall(b"big 100000\n" + word + b"\n")
        assert read_all(peer) == b"x" * 100000
        assert is_gone(other)
        said = carrier.ends(status)
        assert ("kind 9" in said) == (word == b"bad"), said


def sockets(folder):
    carrier = Carrier(folder, "--socket-mode", "660")
    assert os.stat(carrier.path).st_mode & 0o777 == 0o660
    # Where somebody listens, nobody else may.
    second = subprocess.run([BINARY, "--socket", carrier.path, "--", "true"], capture_output=True)
    assert second.returncode == 70 and b"another program listens" in second.stderr, second
    assert ask(carrier.connect(), b"hello") == b"hello\n"
    # A socket that was left behind is replaced, and a file isn't.
    carrier.process.kill()
    carrier.process.wait()
    assert os.path.exists(carrier.path)
    carrier = Carrier(folder)
    wait(lambda: can_connect(carrier))
    carrier.stop()
    plain = folder / "plain"
    plain.write_text("kept")
    refused = subprocess.run([BINARY, "--socket", plain, "--", "true"], capture_output=True)
    assert refused.returncode == 70 and plain.read_text() == "kept"
    assert sorted(path.name for path in folder.iterdir()) == ["frames", "plain"]


def can_connect(carrier):
    try:
        carrier.connect().close()
        return True
    except OSError:
        return False


def addresses(folder):
    with socket.socket() as free:
        free.bind(("127.0.0.1", 0))
        port = free.getsockname()[1]
    for address, options, is_fine in (
        (f"127.0.0.1:{port}", [], True),
        (f"0.0.0.0:{port}", [], False),
        (f"0.0.0.0:{port}", ["--beyond-loopback"], True),
    ):
        words = [BINARY, "--listen", address, *options, "--", sys.executable, __file__, "--program", str(folder / "frames")]
        process = subprocess.Popen(words, stderr=subprocess.PIPE)
        if is_fine:
            peer = None

            def connects():
                nonlocal peer
                try:
                    peer = socket.create_connection(("127.0.0.1", port), 5)
                    return True
                except OSError:
                    return False

            wait(connects)
            assert ask(peer, b"hello") == b"hello\n"
            process.send_signal(signal.SIGTERM)
            assert process.wait(20) == 7
        else:
            assert process.wait(20) == 70 and b"--beyond-loopback" in process.stderr.read()
    for words in (["--socket"], ["--connections", "0", "--", "true"], ["--listen", "127.0.0.1:0"], ["--no", "--", "true"]):
        assert subprocess.run([BINARY, *words], capture_output=True).returncode == 2
    assert subprocess.run([BINARY, "--", "true"], capture_output=True).returncode == 70


def systemd(folder):
    # Two sockets are handed over from descriptor 3 on, and states are told.
    notes = socket.socket(socket.AF_UNIX, socket.SOCK_DGRAM)
    notes.bind(str(folder / "notes"))
    notes.settimeout(20)
    local = socket.socket(socket.AF_UNIX)
    local.bind(str(folder / "handed"))
    local.listen()
    inet = socket.create_server(("127.0.0.1", 0))
    shell = 'exec 3<&%d 4<&%d; LISTEN_FDS=2 LISTEN_PID=$$ exec "$@"' % (local.fileno(), inet.fileno())
    words = ["sh", "-c", shell, "sh", BINARY, "--", sys.executable, __file__, "--program", str(folder / "frames")]
    environment = {**os.environ, "NOTIFY_SOCKET": str(folder / "notes")}
    process = subprocess.Popen(words, env=environment, pass_fds=(local.fileno(), inet.fileno()))
    assert notes.recv(100) == b"READY=1"
    peer = socket.socket(socket.AF_UNIX)
    peer.connect(str(folder / "handed"))
    assert ask(peer, b"hello") == b"hello\n"
    assert ask(socket.create_connection(inet.getsockname(), 5), b"hello") == b"hello\n"
    process.send_signal(signal.SIGTERM)
    assert notes.recv(100) == b"STOPPING=1"
    assert process.wait(20) == 7
    hidden = socket.socket(socket.AF_UNIX, socket.SOCK_DGRAM)
    hidden.bind(b"\0carrier-test-%d" % os.getpid())
    hidden.settimeout(20)
    carrier = Carrier(folder, environment={"NOTIFY_SOCKET": "@carrier-test-%d" % os.getpid()})
    assert hidden.recv(100) == b"READY=1"
    carrier.stop()


if __name__ == "__main__":
    if sys.argv[1:2] == ["--program"]:
        program(sys.argv[2])
        sys.exit(0)
    if not sys.argv[1:]:
        subprocess.run(["cargo", "build", "--offline", "--release"], cwd=HERE, check=True)
    BINARY = sys.argv[1] if sys.argv[1:] else str(HERE / "target/release/wasmhost_carrier")
    for test in (echo, many, slow_readers, silent_peers, stops, deaths, sockets, addresses, systemd):
        with tempfile.TemporaryDirectory() as folder:
            begin = time.time()
            test(pathlib.Path(folder))
            print(f"{test.__name__}: {time.time() - begin:.1f} s", flush=True)
