"""A PostgreSQL of its own, over a Unix socket in a folder that is removed: the rival of censored views."""
import glob
import os
import re
import shutil
import signal
import subprocess
import time


def postgres_folder():
    """The folder of a PostgreSQL's programs, where there is one."""
    found = [os.path.dirname(place) for place in sorted(glob.glob("/usr/lib/postgresql/*/bin/pgbench"))]
    found += [os.path.dirname(place) for place in [shutil.which("pgbench")] if place]
    return next((it for it in found if os.path.exists(os.path.join(it, "initdb"))), None)


class Postgres:
    """A server of its own in a folder of its own, over a Unix socket there."""

    def __init__(self, programs, folder):
        self.programs, self.folder = programs, folder
        self.data = os.path.join(folder, "data")
        self.own = []
        if os.geteuid() == 0:
            shutil.chown(folder, "postgres", "postgres")
            self.own = ["setpriv", "--reuid=postgres", "--regid=postgres", "--clear-groups"]
        self.call("initdb", "-D", self.data, "-A", "trust", "-U", "postgres", "-E", "UTF8", "--locale=C.UTF-8")
        words = [self.program("postgres"), "-D", self.data, "-c", "listen_addresses=", "-c", f"unix_socket_directories={folder}", "-c", "shared_buffers=256MB"]
        self.server = subprocess.Popen(self.own + words, stdout=subprocess.DEVNULL, stderr=subprocess.DEVNULL, cwd=folder)
        for _ in range(600):
            if subprocess.run(self.own + [self.program("pg_isready"), "-q", "-h", folder], cwd=folder).returncode == 0:
                return
            time.sleep(0.05)
        raise SystemExit("PostgreSQL does not start")

    def program(self, name):
        return os.path.join(self.programs, name)

    def call(self, name, *words, text=None):
        run = subprocess.run(self.own + [self.program(name), *words], input=text, capture_output=True, text=True, cwd=self.folder)
        if run.returncode:
            raise SystemExit(f"{name}: {run.stderr[-500:]}")
        return run.stdout

    def ask(self, text, user="postgres"):
        return self.call("psql", "-q", "-A", "-t", "-v", "ON_ERROR_STOP=1", "-h", self.folder, "-U", user, "postgres", text=text)

    def milliseconds(self, query):
        """What a query takes on average, asked for five seconds by the viewer."""
        place = os.path.join(self.folder, "query.sql")
        with open(place, "w") as text:
            text.write(query)
        os.chmod(place, 0o644)
        told = self.call("pgbench", "-n", "-h", self.folder, "-U", "viewer", "-f", place, "-M", "prepared", "-c", "1", "-T", "5", "postgres")
        return float(re.search(r"latency average = ([\d.]+) ms", told).group(1))

    def stop(self):
        self.server.send_signal(signal.SIGINT)
        self.server.wait(60)
