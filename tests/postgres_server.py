"""A server of PostgreSQL in a folder, which ends with this process; and what it has seen of its clients."""

import os
import pathlib
import pwd
import re
import signal
import socket
import subprocess
import sys
import time

# The programs of the newest server that Debian's packages have installed.
PROGRAMS = max(pathlib.Path("/usr/lib/postgresql").glob("*/bin"), key=lambda path: float(path.parent.name), default=None)
ROLE = "bank"
# The words before a command, and before the name of a signal, by which the system sends it that signal once the thread that began it ends or is killed.
WITH_PARENT = "setpriv", "--pdeathsig"
# A server or a command that takes longer hangs, in seconds.
LONGEST = 180
SETTINGS = """listen_addresses = '127.0.0.1'
port = {port}
unix_socket_directories = '{folder}'
max_connections = {most}
superuser_reserved_connections = 3
shared_buffers = 16MB
fsync = off
log_connections = on
log_disconnections = on
log_line_prefix = '%p '
"""
ACCESS = f"local all postgres trust\nhost all {ROLE} 127.0.0.1/32 trust\n"
MOST_CONNECTIONS, RESERVED = 20, 3
# How often a command is tried if the server has no connection left for it.
TRIES = 100
AUTHORIZED = re.compile(rf"^(\d+) LOG:  connection authorized: user={ROLE} ", re.MULTILINE)
# A connection that was refused although it was authorized before; and one that the server ended.
REFUSED = re.compile(r"^(\d+) FATAL:  remaining connection slots are reserved", re.MULTILINE)
ENDED = re.compile(r"^(\d+) (?:FATAL|WARNING):  terminating connection ", re.MULTILINE)
# The tables of accounts and transfers, and the number of accounts whose money is not that of the transfers.
TABLES = """CREATE TABLE account (id int PRIMARY KEY, euros int NOT NULL);
CREATE TABLE transfer (worker int NOT NULL, source int NOT NULL, target int NOT NULL, euros int NOT NULL);
"""
WRONG = """SELECT count(*) FROM account WHERE euros <> 100
  + (SELECT coalesce(sum(transfer.euros), 0) FROM transfer WHERE target = account.id)
  - (SELECT coalesce(sum(transfer.euros), 0) FROM transfer WHERE source = account.id)"""
# What the server says if two users of one connection begin transactions at a time.
SHARED = re.compile(r"duplicate key value|there is already a transaction in progress|there is no transaction in progress")


def free_port():
    """A port of the loopback address that nothing listens to."""
    with socket.socket() as found:
        found.bind(("127.0.0.1", 0))
        return found.getsockname()[1]


def other_user():
    """The user as whom the server runs, as options of a process: it refuses root."""
    if os.geteuid() != 0:
        return {}
    names = {entry.pw_name: entry for entry in pwd.getpwall()}
    entry = names.get("postgres") or names["nobody"]
    return {"user": entry.pw_uid, "group": entry.pw_gid, "extra_groups": []}


def end_by(*numbers, last=""):
    """Has this process end by these signals, and the server with it, with a line that says so and what comes last."""
    for number in numbers:
        signal.signal(number, lambda number, _: sys.exit(f"ended by {signal.Signals(number).name}{last}"))


class Server:
    """The server. Databases are the superuser's over a Unix socket, and those of the role over the loopback address."""

    def __init__(self, folder):
        self.folder, self.user, self.port = folder / "server", other_user(), free_port()
        self.data, self.log = self.folder / "data", self.folder / "log"
        self.folder.mkdir()
        folder.chmod(0o711)
        if self.user:
            os.chown(self.folder, self.user["user"], self.user["group"])
        self.control("initdb", "-o", "-U postgres -A trust -E UTF8 --locale=C --no-sync")
        with open(self.data / "postgresql.conf", "a") as settings:
            settings.write(SETTINGS.format(port=self.port, folder=self.folder, most=MOST_CONNECTIONS))
        (self.data / "pg_hba.conf").write_text(ACCESS)

    def __enter__(self):
        self.start()
        self.ask(f"CREATE ROLE {ROLE} LOGIN")
        return self

    def __exit__(self, *_):
        self.stop("immediate")

    def control(self, *words):
        words = [PROGRAMS / "pg_ctl", "-D", self.data, "-t", str(LONGEST), *words]
        subprocess.run(words, cwd=self.folder, check=True, stdin=subprocess.DEVNULL, stdout=subprocess.DEVNULL, **self.user)

    def start(self):
        """Starts the server, and waits until it answers."""
        self.control("start", "-l", self.log)

    def stop(self, mode="fast"):
        """Stops the server: in order, or `immediate`, as in a crash."""
        self.control("stop", "-m", mode)

    def restart(self):
        self.control("restart", "-m", "fast", "-l", self.log)

    def answer(self, command, database="postgres"):
        """What the server answers the superuser, without the last line feed; or `None` if it fails. Tries again if attempts of the role, which the
        server is about to refuse, have taken the reserved connections."""
        words = [PROGRAMS / "psql", "-XAtq", "-v", "ON_ERROR_STOP=1", "-h", self.folder, "-p", str(self.port), "-U", "postgres", "-d", database]
        options = {"input": command, "capture_output": True, "text": True, "timeout": LONGEST}
        for _ in range(TRIES):
            done = subprocess.run(words, env=os.environ | {"PGCONNECT_TIMEOUT": "5"}, **options)
            if "too many clients already" not in done.stderr:
                break
            time.sleep(0.02)
        return done.stdout.removesuffix("\n") if done.returncode == 0 else None

    def ask(self, command, database="postgres"):
        """The same of a command that must succeed."""
        answer = self.answer(command, database)
        if answer is None:
            raise SystemExit(f"the server refuses {command!r}:\n{self.log.read_text()[-2000:]}\n0 passed, 1 failed")
        return answer

    def allow(self, most):
        """Restarts the server with a limit of connections of the role."""
        self.ask(f"ALTER SYSTEM SET max_connections = {most + RESERVED}")
        self.restart()

    def backends(self):
        """The processes that serve the role; or `None` if the server does not answer."""
        answer = self.answer(f"SELECT pid FROM pg_stat_activity WHERE usename = '{ROLE}'")
        return None if answer is None else {int(word) for word in answer.split()}

    def noted(self, begin=0):
        """What the server has logged from a place on."""
        return self.log.read_bytes()[begin:].decode(errors="replace")


def sessions_of(log):
    """The least and the most connections that clients can have got, by what the server logged: the processes that it authorized and neither refused
    nor ended, and those that it authorized and did not refuse."""
    authorized, refused, ended = (set(pattern.findall(log)) for pattern in (AUTHORIZED, REFUSED, ENDED))
    return authorized - refused - ended, authorized - refused
