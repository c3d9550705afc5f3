"""A PostgreSQL of the tests' own: in a folder of its own, reached by a socket in it, and stopped at the end."""
import glob
import os
import shutil
import subprocess
import time

from tests.harness import loaded
from tests.stores.store_requests import STORES


def pq():
    """The module of libpq; OSError where that is not on this machine."""
    return loaded(os.path.join(STORES, "standby", "pq.py"))


def binary(name):
    """A program of PostgreSQL; None where it is not on this machine."""
    found = sorted(glob.glob(f"/usr/lib/postgresql/*/bin/{name}"))
    return shutil.which(name) or (found[-1] if found else None)


def why_not(room):
    """Why no server can run here, in this folder; None if one can."""
    if not binary("initdb") or not binary("postgres"):
        return "not on this machine"
    if os.getuid() == 0 and subprocess.run(["id", "postgres"], capture_output=True).returncode:
        return "this is root, and there is no user postgres"
    if os.getuid() == 0:  # PostgreSQL does not run as root
        os.chmod(room, 0o755)
        if subprocess.run(["test", "-x", room], user="postgres").returncode:
            return f"the user postgres can't reach {room}"
    try:
        pq()
    except OSError:
        return "libpq.so.5 is not on this machine"
    return None


class Server:
    """A server, as a `with`."""

    def __init__(self, room):
        self.folder, self.process = os.path.join(room, "postgres"), None
        self.words = f"host={self.folder} user=postgres dbname=postgres"
        self.user = {"user": "postgres", "group": "postgres"} if os.getuid() == 0 else {}

    def __enter__(self):
        os.mkdir(self.folder)
        if self.user:
            shutil.chown(self.folder, **self.user)
        data = f"{self.folder}/data"
        how = {"cwd": self.folder, "stdout": subprocess.DEVNULL, "stderr": subprocess.DEVNULL, **self.user}
        words = [binary("initdb"), "-D", data, "-A", "trust", "-U", "postgres", "-E", "UTF8", "--locale=C"]
        subprocess.run(words, check=True, **how)
        settings = ["listen_addresses=", f"unix_socket_directories={self.folder}", "max_connections=40"]
        words = [binary("postgres"), "-D", data, *(word for setting in settings for word in ("-c", setting))]
        self.process = subprocess.Popen(words, **how)
        self.connect().close()
        return self

    def __exit__(self, *_):
        self.process.terminate()
        try:
            self.process.wait(20)
        except subprocess.TimeoutExpired:
            self.process.kill()
            self.process.wait()

    def connect(self, database="postgres"):
        """A connection, once the server takes one."""
        for _ in range(300):
            try:
                return pq().Connection(self.words_of(database))
            except pq().Error:
                time.sleep(0.1)
        raise TimeoutError("PostgreSQL takes no connection")

    def words_of(self, database):
        """How a program connects to a database."""
        return self.words.replace("dbname=postgres", f"dbname={database}")

    def new_database(self, name):
        connection = self.connect()
        connection.rows(f"CREATE DATABASE {name}")
        connection.close()
        return self.words_of(name)
