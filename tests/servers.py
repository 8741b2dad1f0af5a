"""A server of the program under test, for the scripts beside this."""
import pathlib
import socket
import subprocess
import time


def free_port():
    with socket.socket() as listener:
        listener.bind(("127.0.0.1", 0))
        return listener.getsockname()[1]


class Server:
    """The program as `serve` over a journal, on a port of this machine, while a `with` lasts."""

    def __init__(self, program, journal, workers, connections):
        self.journal, self.connections, self.port = pathlib.Path(journal), connections, free_port()
        words = ["--port", str(self.port), "--workers", str(workers), "--connections", str(connections)]
        self.words = [program, "serve", "--journal", str(journal), *words]

    def __enter__(self):
        self.process = subprocess.Popen(self.words, stdout=subprocess.PIPE, stderr=subprocess.PIPE)
        if wait_for(self.process, self.port):
            return self
        self.process.kill()
        _, errors = self.process.communicate()
        raise SystemExit(f"{' '.join(map(str, self.words))} does not listen: status {self.process.returncode}, {errors!r}")

    def __exit__(self, *raised):
        self.process.kill()
        self.process.communicate()

    @property
    def url(self):
        return f"http://127.0.0.1:{self.port}"

    def connect(self, seconds=30):
        return socket.create_connection(("127.0.0.1", self.port), timeout=seconds)

    def ask(self, data):
        """What comes back for these bytes on a connection of their own, whose other half is closed behind them."""
        with self.connect() as one:
            one.sendall(data)
            one.shutdown(socket.SHUT_WR)
            return read_all(one)

    def close_by_connections(self):
        """Opens connections that say nothing until the program has had all of its own; its status and its two streams."""
        end = time.monotonic() + 120
        while self.process.poll() is None:
            if time.monotonic() > end:
                raise SystemExit("the program has not ended after two minutes of further connections")
            try:
                self.connect(5).close()
            except OSError:
                time.sleep(0.01)
        output, errors = self.process.communicate(timeout=60)
        return self.process.returncode, output, errors

    def counted(self, what):
        """A number that the system keeps of the process: its open descriptors, its threads or its memory in KiB."""
        if what == "descriptors":
            return len(list(pathlib.Path(f"/proc/{self.process.pid}/fd").iterdir()))
        name = {"threads": "Threads:", "memory": "VmRSS:"}[what]
        status = pathlib.Path(f"/proc/{self.process.pid}/status").read_text()
        return int(next(line for line in status.splitlines() if line.startswith(name)).split()[1])


def listens(port):
    wanted = f"0100007F:{port:04X}"
    lines = [line.split() for line in pathlib.Path("/proc/net/tcp").read_text().splitlines()[1:]]
    return any(line[1] == wanted and line[3] == "0A" for line in lines)


def wait_for(process, port):
    """Whether the program listens within some ten seconds; this is looked up and not tried, since each try would be one of its connections."""
    for _ in range(2_000):
        if listens(port):
            return True
        if process.poll() is not None:
            break
        time.sleep(0.005)
    return False


def read_all(stream):
    parts = []
    while part := stream.recv(65_536):
        parts.append(part)
    return b"".join(parts)


def split_reply(data):
    """The first reply in these bytes, as its status, its body and what stands behind it; nothing where it is not whole."""
    head, gap, rest = data.partition(b"\r\n\r\n")
    lengths = [line for line in head.split(b"\r\n") if line.lower().startswith(b"content-length:")]
    if not gap or not lengths:
        return None
    length = int(lengths[0].split(b":")[1])
    if len(rest) < length:
        return None
    return int(head.split(b" ")[1]), rest[:length], rest[length:]
