"""The commands of the two guides with PostgreSQL, run as they stand there, but for hosts and ports."""
from __future__ import annotations

import contextlib
import os
import re
import subprocess
from pathlib import Path
from typing import Any, Callable, Iterator

import pytest
from commands import needs, printed, ran
from docs.guides import BROKER, CREATE, PLATFORM, healthy, moved, statuses
from docs.pages import block, covers
from docs.workdir import Workdir
from osb import Id
from ports import free_port
from waiting import until

pytestmark = [pytest.mark.slow, pytest.mark.postgres, pytest.mark.usefixtures("broker")]


@pytest.fixture(autouse=True)
def tools() -> None:
    """All of them need these."""
    needs("curl", "psql")


# What pg_virtualenv runs beside a server. Its standard input also ends if pytest is killed.
_SERVE = 'env | grep ^PG; echo "RULES=$(psql -Atc "SHOW hba_file")"; echo; cat'


class Machine:
    """A server of PostgreSQL of the test's own, prepared as the page says."""

    def __init__(self, port: int, given: dict[str, str]) -> None:
        self.port = port
        self.user, self._rules = given["PGUSER"], Path(given["RULES"])
        self._environment = {**given, "PATH": os.environ["PATH"], "PGHOST": "127.0.0.1"}

    def run(self, statements: str) -> list[str]:
        """Run statements as a superuser, and return the lines that psql prints."""
        line = ["psql", "-XqAt", "-v", "ON_ERROR_STOP=1"]
        return printed(line, environment=self._environment, given=statements).splitlines()

    def shell(self, commands: str, folder: Path) -> str:
        """Run commands of a shell as a superuser who may connect everywhere, and return what they print."""
        done = ran(["bash", "-c", f"set -eu\n{commands}"], folder, self._environment, merged=True)
        assert done.returncode == 0, done.stdout
        return done.stdout

    def session(self, **settings: str) -> Any:
        """A session, of the superuser if no other user is given. Each statement is committed."""
        import psycopg2  # if PostgreSQL is used, it is installed

        given = {"dbname": "postgres", "user": self.user, "password": self._environment["PGPASSWORD"], **settings}
        session = psycopg2.connect(host="127.0.0.1", port=self.port, **given)
        session.autocommit = True
        return session

    def is_full(self) -> bool:
        """Whether the superuser is kept out, because all locks are taken."""
        import psycopg2

        try:
            self.session().close()
        except psycopg2.OperationalError as error:
            assert "out of shared memory" in str(error)
            return True
        return False

    def admit(self, rules: str) -> None:
        """Let in those whom these lines of pg_hba.conf let in, without TLS and from here, and the superuser."""
        here = re.sub(r"\S+/\d+", "127.0.0.1/32", rules.replace("hostssl", "host"))
        self._rules.write_text(f"host all {self.user} 127.0.0.1/32 scram-sha-256\n{here}", encoding="utf-8")
        assert self.run("SELECT error FROM pg_hba_file_rules WHERE error IS NOT NULL;") == []
        self.run("SELECT pg_reload_conf();")


@contextlib.contextmanager
def started() -> Iterator[Machine]:
    """A server, as long as the context lasts."""
    port = free_port()
    serving = subprocess.Popen(
        ["pg_virtualenv", "-t", "-c", "--locale=C --encoding=UTF8", "-o", f"port={port}", "sh", "-c", _SERVE],
        env={name: value for name, value in os.environ.items() if not name.startswith("PG")},
        stdin=subprocess.PIPE,
        stdout=subprocess.PIPE,
        text=True,
        start_new_session=True,
    )
    try:
        assert serving.stdout is not None
        lines = iter(serving.stdout.readline, "\n")
        given = dict(line.rstrip("\n").split("=", 1) for line in lines if "=" in line)
        yield Machine(port, given)
    finally:
        serving.communicate()


@pytest.fixture
def machines() -> Iterator[dict[str, Machine]]:
    """The two servers of the page, by their names."""
    needs("pg_virtualenv")
    with contextlib.ExitStack() as stack:
        yield {name: stack.enter_context(started()) for name in ("db", "shop")}


def placed(text: str, machines: dict[str, Machine]) -> str:
    """The text of the page, with the addresses of the two servers."""
    for name, machine in machines.items():
        text = re.sub(rf"(^|[@\s']){name}(:5432|/)", _address(machine.port), text)
    return text


def _address(port: int) -> Callable[[re.Match[str]], str]:
    return lambda it: f"{it[1]}127.0.0.1:{port}" + it[2].replace(":5432", "")


# Uses the database as its owner, and leaves something there that belongs to the role of the binding. It tries to take a
# lock.
USE = """\
psql -XAtc 'SELECT current_database()' -c 'SET ROLE NONE' -c 'CREATE SCHEMA own' "$uri"
if psql -XAtc 'SELECT pg_advisory_lock(1)' "$uri"; then exit 1; fi
"""

TEMPLATE = "CREATE DATABASE template_osb "


@covers(
    BROKER,
    "CREATE ROLE broker ",
    "CREATE ROLE seller ",
    "GRANT SET ON PARAMETER ",
    TEMPLATE,
    "ALTER SYSTEM ",
    "hostssl  brokers ",
    "hostssl  all ",
    "umask 077\n",
    "export OSB_BROKER_PASSWORD=secret PGPASSFILE=",
    "for n in 1 2 3; do\n",
    "ask $one/service_bindings/app\n",
    "./osb-broker key > new.key\n",
)
def test_broker(texts: list[str], workdir: Workdir, port: int, machines: dict[str, Machine]) -> None:
    """The credentials of a binding open the database that it sells, until the key is replaced. Of three brokers, one is
    killed, and the others go on. Nothing is left once the instances are deleted. All is done in the order of the page,
    with the roles, databases and passwords of the page.
    """
    of_db, of_shop, right, template, locks, broker_rule, shop_rules, secrets, serve, several, others, rekey = (
        moved(placed(text, machines), port) for text in texts
    )
    db, shop = machines["db"], machines["shop"]
    db.run(of_db)
    shop.run(of_shop)
    limits = int(shop.run("SHOW server_version_num;")[0]) >= 150000
    if limits:
        shop.run(right)
    shop.run(template)
    shop.run(locks)
    db.admit(broker_rule)
    shop.admit(shop_rules)
    create, delete = moved(block(BROKER, CREATE), port).split("ls build/broker/instances\n")
    start, stop = f"{serve.strip()} &\n{healthy(port)}", "kill $!; wait $!\n"
    serving = 'until [ $(grep -c \'"event":"serving"\' ../err) = 4 ]; do sleep 0.05; done\n'  # the first, and three
    three = (
        f"{several}{serving}kill -9 %1\n{others}"
        'ask -X DELETE "${one%/*}/my-third?service_id=$service&plan_id=$plan"\nkill %2 %3\nwait\n'
    )
    out = workdir.run(
        f"{secrets}{start}{{\n{create}}} >answers\ncat answers\nuri=$(grep -o 'postgresql://[^\"]*' answers)\n{USE}"
        f"{stop}{three}{rekey}if psql -Xc '' \"$uri\"; then exit 1; fi\n{start}{delete}{stop}"
    )
    assert statuses(out) == ["201", "201", "200", "201", "200", "200", "200"]
    sold = "osb_" + str(Id.of_text("my-first")).replace("-", "")
    assert f"\n{sold}\n" in out
    names = "SELECT datname FROM pg_database UNION ALL SELECT rolname FROM pg_roles;"
    assert [name for name in shop.run(names) if name.startswith("osb_")] == []
    assert "password authentication failed" in workdir.errors()
    assert "PUBLIC" not in workdir.errors() and limits == ("temp_file_limit" not in workdir.errors())
    assert "permission denied for function pg_advisory_lock" in workdir.errors()
    assert "template" not in workdir.errors()  # the broker has nothing to say against it
    assert shop.run("SELECT setting FROM pg_file_settings WHERE name = 'max_locks_per_transaction';") == ["1024"]


@covers(BROKER, TEMPLATE, "export PGOPTIONS=")
def test_databases_that_exist(texts: list[str], tmp_path: Path) -> None:
    """The functions are taken away in each database that was sold, whatever its owner has set."""
    needs("pg_virtualenv")
    template, take = texts
    names = ["osb_" + "1" * 32, "osb_" + "2" * 32]
    with started() as shop:
        shop.run("CREATE ROLE seller; CREATE DATABASE sold OWNER seller;")
        for name in names:
            shop.run(f"CREATE ROLE {name}; CREATE DATABASE {name} OWNER {name} TEMPLATE template0;")
        for value in (f"role = '{names[0]}'", "search_path = 'none'", "local_preload_libraries = 'none'"):
            shop.run(f"ALTER DATABASE {names[0]} SET {value};")
        for value in (f"session_authorization = '{names[1]}'", "default_transaction_read_only = on"):
            shop.run(f"ALTER DATABASE {names[1]} SET {value};")
        (tmp_path / "revoke.sql").write_text(template[template.index("REVOKE EXECUTE") :], encoding="utf-8")
        assert shop.shell(take.replace("=postgres ", f"={shop.user} "), tmp_path) == ""
        for name in names:
            options = "-c local_preload_libraries= -c search_path=pg_catalog"
            with shop.session(dbname=name, options=options).cursor() as cursor:
                cursor.execute("SELECT has_function_privilege('public', 'pg_try_advisory_lock(bigint)', 'EXECUTE')")
                assert cursor.fetchone() == (False,)


@covers(BROKER, "SELECT pid, usename, state, count(*) AS locks ", "pkill -P ")
def test_locks(texts: list[str], tmp_path: Path) -> None:
    """A customer that has taken all locks keeps even the superuser out. The query had found it before that, and the
    command ends its session.
    """
    needs("pg_virtualenv", "pkill")
    query, end = texts
    name = "osb_" + "1" * 32
    take = "SELECT count(pg_advisory_lock(n)) FROM generate_series(1, {}) AS n"
    with started() as shop:
        shop.run(f"CREATE ROLE {name} LOGIN PASSWORD 'own'; CREATE DATABASE {name} OWNER {name};")
        (folder,) = shop.run("SHOW data_directory;")
        customer = shop.session(dbname=name, user=name, password="own").cursor()
        customer.execute(take.format(11_000))
        assert [row.split("|")[1:3] for row in shop.run(query)] == [[name, "idle"]]
        with pytest.raises(Exception, match="out of shared memory"):
            customer.execute(take.format(1_000_000))
        assert shop.is_full()
        shop.shell(end.replace("DATA", folder), tmp_path)
        until(lambda: not shop.is_full())


@covers(
    PLATFORM,
    "CREATE ROLE platform ",
    "hostssl  platform ",
    "umask 077\necho 'db:5432:platform:",
    "export PGPASSFILE=$PWD/pgpass OSB_PLATFORM_STORE=",
)
@pytest.mark.usefixtures("platform")
def test_platform(texts: list[str], workdir: Workdir, port: int) -> None:
    """A worker creates an instance, under the role and in the database of the page. No other role gets in."""
    needs("pg_virtualenv")
    with started() as db:
        statements, rule, secrets, run = (placed(text, {"db": db}) for text in texts)
        db.run(statements)
        db.admit(rule)
        run = run.replace("https://broker.example", f"http://127.0.0.1:{port}")
        create = "./osb-platform create --service folder --plan at-once --wait"
        out = workdir.run(
            f"{secrets}OSB_BROKER_PASSWORD=secret ./osb-broker serve --listen 127.0.0.1:{port} &\n{healthy(port)}"
            f"{run.strip()} >printed 2>log &\none=$({create})\n./osb-platform show $one\nkill $!; wait $!\n"
        )
        assert re.search(r"^state\tready$", out, re.MULTILINE)
        db.run("CREATE ROLE other LOGIN;")
        may = "SELECT has_database_privilege('other', 'platform', 'CONNECT');"
        assert db.run(may) == ["f"]
