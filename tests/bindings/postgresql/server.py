"""A PostgreSQL server of its own, on a socket and with no port, which pg_virtualenv makes and takes away again. Debian's PostgreSQL
takes an extension from below a directory as from the system's (extension_destdir), so that nothing is installed elsewhere.
"""

import contextlib
import os
import pathlib
import re
import shutil
import subprocess
import tempfile

from calls import TOP

SOURCES = TOP / "bindings/postgresql"
LIBRARY = TOP / "out/lib"
# The kilobytes that each process of a server may have.
MEMORY = 6 * 1024 * 1024
# What is needed of a server, by the places that pg_config names.
FILES = {"includedir-server": "postgres.h", "bindir": "postgres"}
# No address is a blank, since pg_createcluster passes over what is empty. A plan has workers as soon as it may have some.
OPTIONS = {"listen_addresses": " ", "external_pid_file": "pid", "jit": "off", "autovacuum": "off", "max_worker_processes": 16,
           "max_parallel_workers": 16, "max_parallel_workers_per_gather": 0, "parallel_setup_cost": 0, "parallel_tuple_cost": 0,
           "min_parallel_table_scan_size": 0}


def config(name):
    """Gives what pg_config says by a name, which is nothing if it is of no server, or not there."""
    if not shutil.which("pg_config"):
        return ""
    done = subprocess.run(["pg_config", f"--{name}"], stdin=subprocess.DEVNULL, capture_output=True, text=True, check=False)
    return done.stdout.strip()


def lacking(*places):
    """Gives what of FILES, or of those in such places, is not there; or nothing."""
    missing = [FILES[place] for place in places or FILES if not pathlib.Path(config(place), FILES[place]).is_file()]
    return f"not installed: {' and '.join(missing)} of a PostgreSQL server" if missing else None


def quoted(text):
    """Gives a text, or NULL, as statements have it."""
    return "NULL" if text is None else "'" + text.replace("'", "''") + "'"


class Server:
    """A server in a directory, which finds what is installed below its root: that is where pg_virtualenv has it look."""

    def __init__(self, directory):
        self.directory, self.said = directory, ""
        self.root, self.build = directory / "debian/mergejoin", directory / "build"
        self.setting = {**os.environ, "PGHOST": f"{directory}/socket", "PGPORT": "5432", "PGUSER": "postgres", "PGOPTIONS": "",
                        "PGDATABASE": "postgres", "MERGEJOIN_LIB": str(LIBRARY), "LC_ALL": "C.UTF-8", "TMPDIR": str(directory)}
        self.run("mkdir", "-p", self.root)

    def run(self, *words):
        """Runs words that have to end well, and gives what they print. All users may read what they make."""
        done = subprocess.run(words, stdin=subprocess.DEVNULL, stdout=subprocess.PIPE, stderr=subprocess.STDOUT, text=True,
                              env=self.setting, umask=0o022, timeout=120, check=False)
        assert done.returncode == 0, f"{' '.join(map(str, words))} ends with {done.returncode}:\n{done.stdout}"
        return done.stdout

    def install(self):
        """Builds the extension in a copy of its sources, keeps what the compiler says, and installs it below the root."""
        made = shutil.ignore_patterns("*.o", "*.so", "mergejoin--*.sql", "results", "regression.*")
        shutil.copytree(SOURCES, self.build, ignore=made)
        self.said = self.run("make", "-s", "-C", self.build, "COPT=-Werror")
        self.run("make", "-s", "-C", self.build, "install", f"DESTDIR={self.root}")

    def begin(self, *words):
        """Begins a session, which prints its answers, bare, and each error with its code."""
        words = [f"{config('bindir')}/psql", "-X", "-q", "-A", "-t", "-v", "VERBOSITY=verbose", "-v", "SHOW_CONTEXT=never", *words]
        return subprocess.Popen(words, stdin=subprocess.PIPE, stdout=subprocess.PIPE, stderr=subprocess.STDOUT, text=True,
                                env=self.setting)

    def ask(self, statements, *words):
        """Gives what a session prints of statements, without the places of errors in the server's sources."""
        return re.sub("^LOCATION: .*\n", "", self.begin(*words).communicate(statements, timeout=120)[0], flags=re.M)

    def ask_each(self, statements, *words):
        """Gives what a session prints of each of some statements, which all have to be answered."""
        *answers, rest = self.ask("".join(f"{it};\n\\echo == parted ==\n" for it in statements), *words).split("== parted ==\n")
        assert len(answers) == len(statements), rest
        return answers


@contextlib.contextmanager
def running():
    """Runs a server with nothing installed below its root. All may read its directory, since for root another user runs it. None of its
    processes may have more than MEMORY."""
    with tempfile.TemporaryDirectory() as name:
        os.chmod(name, 0o755)
        server = Server(pathlib.Path(name).resolve())
        number = re.findall(r"^PostgreSQL (\d+)", config("version"))[0]
        words = ["pg_virtualenv", "-t", "-v", number, "-p", server.root.name, "-c", f"-s {name}/socket", "-i", "--auth=trust"]
        words += [word for option, value in OPTIONS.items() for word in ("-o", f"{option}={value}")]
        limited = ["sh", "-c", f'ulimit -v {MEMORY}; exec "$@"', "sh", *words]
        process = subprocess.Popen([*limited, "sh", "-c", "echo it runs; cat"], stdin=subprocess.PIPE, stdout=subprocess.PIPE,
                                   text=True, umask=0o022, cwd=name, env={**server.setting, "USER": "postgres"})
        try:
            assert "it runs\n" in process.stdout, "pg_virtualenv begins no server"
            yield server
        finally:
            process.communicate()
