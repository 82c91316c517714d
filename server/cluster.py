"""A PostgreSQL of one's own, in a folder: for the demonstration and for tests. It listens at a socket in
that folder and nowhere else, and has nothing to do with the system's."""
import glob
import os
import pwd
import shutil
import signal
import subprocess
import time

PROGRAMS = "/usr/lib/postgresql/*/bin"


def programs() -> str:
    """The folder of PostgreSQL's programs."""
    found = sorted(glob.glob(os.path.join(PROGRAMS, "postgres")))
    if not found:
        raise FileNotFoundError("postgres; to get it: apt-get install postgresql")
    return os.path.dirname(found[-1])


class Cluster:
    """A cluster and its database. It never runs as root: then it is the user `postgres`'s."""

    def __init__(self, folder: str):
        self.folder, self.data = os.path.abspath(folder), os.path.join(os.path.abspath(folder), "data")
        self.child: subprocess.Popen | None = None
        self.user = {"user": "postgres", "group": "postgres", "extra_groups": []} if os.geteuid() == 0 else {}
        self.name = "postgres" if self.user else pwd.getpwuid(os.geteuid()).pw_name
        self.conninfo = f"host={self.folder} dbname=postgres user={self.name}"

    def command(self, name: str, *words: str, **more) -> subprocess.Popen:
        path = os.path.join(programs(), name)
        return subprocess.Popen([path, *words], cwd=self.folder, **self.user, **more)

    def __enter__(self) -> "Cluster":
        """It is there as long as this lasts, or as whoever had started it before."""
        self.make()
        return self if self.is_there() else self.start()

    def __exit__(self, *_fault: object) -> None:
        self.stop()

    def is_there(self) -> bool:
        return not self.command("pg_isready", "-q", "-h", self.folder, stdin=subprocess.DEVNULL).wait()

    def make(self) -> "Cluster":
        """Makes it, unless it is there."""
        os.makedirs(self.folder, 0o700, exist_ok=True)
        if self.user:
            shutil.chown(self.folder, "postgres", "postgres")
        if not os.path.exists(os.path.join(self.data, "PG_VERSION")):
            words = ["-D", self.data, "-A", "trust", "-U", self.name, "-E", "UTF8", "--locale=C"]
            if self.command("initdb", *words, stdout=subprocess.DEVNULL).wait():
                raise ChildProcessError(f"initdb failed: may {self.name} use {self.folder}?")
        return self

    def start(self, *settings: str) -> "Cluster":
        """Starts it, and waits until it answers."""
        told = [word for it in (f"unix_socket_directories={self.folder}", "listen_addresses=", *settings)
                for word in ("-c", it)]
        with open(os.path.join(self.folder, "log"), "ab") as log:
            self.child = self.command("postgres", "-D", self.data, *told, stdout=log, stderr=log)
        end = time.monotonic() + 60
        while not self.is_there():
            if self.child.poll() is not None or time.monotonic() > end:
                raise ChildProcessError(f"PostgreSQL doesn't start: see {self.folder}/log")
            time.sleep(0.05)
        return self

    def stop(self, immediately: bool = False) -> None:
        """Ends it, with a last checkpoint, or at once as a crash would."""
        if self.child:
            self.child.send_signal(signal.SIGQUIT if immediately else signal.SIGINT)
            self.child.wait(60)
            self.child = None
