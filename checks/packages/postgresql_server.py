"""A PostgreSQL server for a check: in a temporary folder, on a socket there alone, and as nobody where the check runs as root."""
import os
import shutil
import subprocess
import tempfile

import packages
from packages.postgresql import asked

PROGRAMS = ("postgres", "initdb", "pg_ctl", "pg_config")
USER = "tester"
SETTINGS = {
    "listen_addresses": "", "fsync": "off", "shared_buffers": "64MB", "max_connections": "40", "max_parallel_workers": "8",
    "max_worker_processes": "8", "log_min_messages": "warning", "logging_collector": "off", "timezone": "UTC", "datestyle": "ISO, YMD",
    # (a query that does not end is an error then)
    "statement_timeout": "5min",
}


def link_all(source, target):
    """Makes a folder with links to all that another has."""
    os.makedirs(target)
    for name in os.listdir(source):
        os.symlink(f"{source}/{name}", f"{target}/{name}")


def copy_installation(config, room):
    """Makes an installation of PostgreSQL in a folder, with the programs copied and all else linked; its pg_config.

    The programs find their files by the way from their own place. So the extension is installed there, and nowhere else.
    """
    folders = [asked(config, it) for it in ("bindir", "pkglibdir", "sharedir")]
    base = os.path.commonpath(folders)
    programs, modules, shared = (f"{room}/{os.path.relpath(it, base)}" for it in folders)
    os.makedirs(programs)
    for name in PROGRAMS:
        shutil.copy(f"{folders[0]}/{name}", programs)
    link_all(folders[1], modules)
    link_all(folders[2], shared)
    os.remove(f"{shared}/extension")
    link_all(f"{folders[2]}/extension", f"{shared}/extension")
    return f"{programs}/pg_config"


class Session:
    """A connection that stays, through which queries go one by one."""

    def __init__(self, server):
        self.psql = subprocess.Popen(server.psql(), stdin=subprocess.PIPE, stdout=subprocess.PIPE, stderr=subprocess.STDOUT, text=True)
        self.asked = 0

    def send(self, query):
        """Sends a query, and does not wait."""
        self.asked += 1
        self.psql.stdin.write(f"{query}\n;\n\\echo done {self.asked}\n")
        self.psql.stdin.flush()

    def take(self):
        """What the query that was sent last prints."""
        lines = []
        for line in self.psql.stdout:
            if line == f"done {self.asked}\n":
                return "".join(lines).rstrip("\n")
            lines.append(line)
        raise RuntimeError(f"the session ended: {''.join(lines)}")

    def ask(self, query):
        """What a query prints: rows as lines, with | between values."""
        self.send(query)
        return self.take()

    def close(self):
        self.psql.stdin.close()
        self.psql.wait()
        self.psql.stdout.close()


class Server:
    """A server that runs while the block of `with` does."""

    def __init__(self, config, database="postgres"):
        self.config, self.database, self.room = config, database, None

    def __enter__(self):
        self.room = tempfile.mkdtemp(prefix="postgresql-")
        try:
            os.chmod(self.room, 0o755)
            self.installed = copy_installation(self.config, f"{self.room}/installed")
            self.programs = os.path.dirname(self.installed)
            os.mkdir(f"{self.room}/own")
            if os.geteuid() == 0:
                shutil.chown(f"{self.room}/own", "nobody", "nogroup")
            # (rows of C, so that texts sort by their bytes)
            self.run("initdb", "-U", USER, "-A", "trust", "-E", "UTF8", "--locale=C.UTF-8", "--no-instructions", "--no-sync")
            with open(f"{self.room}/own/data/postgresql.auto.conf", "a", encoding="utf-8") as it:
                it.writelines(f"{name} = '{value}'\n" for name, value in {**SETTINGS, "unix_socket_directories": f"{self.room}/own"}.items())
            self.start()
        except BaseException:
            self.__exit__()
            raise
        return self

    def __exit__(self, *_):
        if os.path.exists(f"{self.room}/own/data/postmaster.pid"):
            self.run("pg_ctl", "stop", "-m", "immediate", "-w")
        shutil.rmtree(self.room, ignore_errors=True)

    def run(self, program, *words):
        """Runs a program of the server over its data."""
        how = {"user": "nobody", "group": "nogroup", "extra_groups": []} if os.geteuid() == 0 else {}
        with open(f"{self.room}/said", "w+", encoding="utf-8", errors="replace") as said:
            # (a server that starts keeps what it was given open, so it gets no pipe)
            words = [f"{self.programs}/{program}", "-D", f"{self.room}/own/data", *words]
            ran = subprocess.run(words, stdin=subprocess.DEVNULL, stdout=said, stderr=said, cwd=f"{self.room}/own", **how)
            said.seek(0)
            if ran.returncode:
                raise RuntimeError(f"{' '.join(words)}\n{said.read()[-3000:]}{self.log()[-3000:]}")

    def start(self):
        self.run("pg_ctl", "start", "-w", "-l", f"{self.room}/own/log")

    def restart(self):
        self.run("pg_ctl", "restart", "-w", "-m", "fast", "-l", f"{self.room}/own/log")

    def log(self):
        """What the server has said."""
        try:
            with open(f"{self.room}/own/log", encoding="utf-8", errors="replace") as it:
                return it.read()
        except FileNotFoundError:
            return ""

    def install(self, package):
        """Installs the extension by the script of the package."""
        packages.run(["sh", f"{package}/install", self.installed])

    def words(self):
        """How a program of PostgreSQL's client reaches the server."""
        return ["-h", f"{self.room}/own", "-U", USER, "-d", self.database]

    def psql(self, *words):
        """psql, which prints rows alone, with | between values."""
        return ["psql", "-X", "-q", "-A", "-t", "-v", "VERBOSITY=default", *self.words(), *words]

    def ask(self, script, *words):
        """What a script prints."""
        ran = subprocess.run(self.psql(*words), input=script, stdout=subprocess.PIPE, stderr=subprocess.STDOUT, text=True)
        return ran.stdout.rstrip("\n")

    def session(self):
        return Session(self)
