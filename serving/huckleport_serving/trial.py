"""A PostgreSQL server of one's own in a folder, for a try and for tests. It listens only on a socket in that folder, which is its user's alone."""

from __future__ import annotations

import glob
import os
import pwd
import shutil
import signal
import stat
import subprocess
import time
from dataclasses import dataclass, field
from typing import Any, Dict, Optional

import psycopg

SERVES = "postgres"
"""The superuser of the database, and the user as which the server runs if root starts it."""


class NoServer(Exception):
    """PostgreSQL's programs are not here, or its server does not start."""


def programs() -> str:
    """The folder of PostgreSQL's programs: the newest of Debian's, or where they are found by the path."""
    found = sorted(glob.glob("/usr/lib/postgresql/*/bin/initdb"), key=lambda it: int(it.split("/")[4]))
    first = found[-1] if found else shutil.which("initdb")
    if not first:
        raise NoServer("PostgreSQL's server is not here (Debian has it as postgresql)")
    return os.path.dirname(os.path.realpath(first))


def user() -> Dict[str, Any]:
    """As whom the server's programs are run."""
    if os.geteuid() != 0:
        return {}
    try:
        found = pwd.getpwnam(SERVES)
    except KeyError:
        raise NoServer(f"there is no user {SERVES}, and the server refuses to run as root") from None
    return {"user": found.pw_uid, "group": found.pw_gid, "extra_groups": []}


@dataclass
class Server:
    """A server whose data, log and socket lie in one folder."""

    folder: str
    settings: Dict[str, str] = field(default_factory=dict)
    process: Optional[subprocess.Popen[bytes]] = None

    @property
    def data(self) -> str:
        return os.path.join(self.folder, "data")

    @property
    def conninfo(self) -> str:
        port = self.settings.get("port", "5432")
        return f"host={self.folder} port={port} dbname=postgres user={SERVES}"

    def make(self) -> None:
        """Makes the data, if there are none. Only the user who runs this, and the server's own, may connect."""
        self.make_folder()
        if not os.path.exists(self.data):
            self._run("initdb", "--auth=peer", f"--username={SERVES}", "--encoding=UTF8", "--locale=C", "-D", self.data)
        self._write("pg_hba.conf", "".join(f"local {it} all peer map=owner\n" for it in ("all", "replication")))
        names = {pwd.getpwuid(it).pw_name for it in (os.geteuid(), user().get("user", os.geteuid()))}
        self._write("pg_ident.conf", "".join(f"owner {it} {SERVES}\n" for it in sorted(names)))

    def _write(self, name: str, text: str) -> None:
        with open(os.path.join(self.data, name), "w", encoding="ascii") as file:
            file.write(text)

    def make_standby_of(self, primary: Server) -> None:
        """Makes the data as a copy of another server's, to follow it from then on under the name `standby`."""
        self.make_folder()
        source = f"host={primary.folder} user={SERVES} application_name=standby"
        self._run("pg_basebackup", "--checkpoint=fast", "--write-recovery-conf", "--wal-method=stream", "-d", source, "-D", self.data)

    def make_folder(self) -> None:
        """Makes the folder, for the server's user alone. One that is there is refused unless it is such a folder."""
        if len(os.path.join(self.folder, ".s.PGSQL.5432.lock")) > 100:
            raise NoServer(f"{self.folder} is too long for the name of a socket")
        try:
            os.mkdir(self.folder, 0o700)
        except FileExistsError:
            self._check_folder()
        else:
            if user():
                os.chown(self.folder, user()["user"], user()["group"])

    def _check_folder(self) -> None:
        found = os.lstat(self.folder)
        owner = user().get("user", os.geteuid())
        if not stat.S_ISDIR(found.st_mode) or found.st_uid != owner or found.st_mode & 0o077:
            raise NoServer(f"{self.folder} is there, and is no folder of the server's user alone (mode 0700): name a new one")

    def start(self) -> None:
        """Starts it, and waits until it answers."""
        words = [os.path.join(programs(), "postgres"), "-D", self.data, "-k", self.folder, "-c", "listen_addresses=", "-c", "unix_socket_permissions=0700"]
        words += [word for name, it in self.settings.items() for word in ("-c", f"{name}={it}")]
        with open(os.path.join(self.folder, "log"), "ab") as log:
            self.process = subprocess.Popen(words, stdin=subprocess.DEVNULL, stdout=log, stderr=log, start_new_session=True, cwd="/", **user())
        until = time.monotonic() + 60
        while not self._answers():
            if self.process.poll() is not None or time.monotonic() > until:
                raise NoServer(f"the server does not start: {self.folder}/log says why")
            time.sleep(0.05)

    def _answers(self) -> bool:
        try:
            psycopg.connect(self.conninfo, connect_timeout=5).close()
        except psycopg.OperationalError:
            return False
        return True

    def promote(self) -> None:
        """Has a standby take writes from now on."""
        self._run("pg_ctl", "promote", "-w", "-D", self.data)

    def reload(self) -> None:
        """Has it read its files again."""
        self._run("pg_ctl", "reload", "-D", self.data)

    def stop(self) -> None:
        """Ends it, with all connections."""
        if self.process is not None and self.process.poll() is None:
            self.process.send_signal(signal.SIGINT)
            self.process.wait()

    def kill(self) -> None:
        """Ends all of its processes at once, as when its machine is lost."""
        assert self.process is not None
        # (it is stopped first, so that it sees none of them go)
        self.process.send_signal(signal.SIGSTOP)
        with open(f"/proc/{self.process.pid}/task/{self.process.pid}/children", encoding="ascii") as file:
            children = [int(it) for it in file.read().split()]
        for it in [*children, self.process.pid]:
            os.kill(it, signal.SIGKILL)
        self.process.wait()

    def _run(self, name: str, *words: str) -> None:
        ran = subprocess.run([os.path.join(programs(), name), *words], stdout=subprocess.PIPE, stderr=subprocess.STDOUT, cwd="/", check=False, **user())
        if ran.returncode:
            raise NoServer(f"{name}: {ran.stdout.decode(errors='replace').strip()}")


SYNCHRONOUS: Dict[str, str] = {"synchronous_standby_names": "standby"}
"""With these settings no commit returns before the standby has it on disk."""
