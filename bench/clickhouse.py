"""A ClickHouse server of its own for one run, which reads the row files into a table in memory and answers the same questions."""

import contextlib
import os
import shutil
import subprocess
import time

PORT = 19_017
CONFIG = """<yandex>
<logger><level>error</level><log>{room}/log</log><errorlog>{room}/errors</errorlog></logger>
<tcp_port>{port}</tcp_port><listen_host>127.0.0.1</listen_host>
<path>{room}/data/</path><tmp_path>{room}/tmp/</tmp_path><users_config>{room}/users.xml</users_config>
<default_profile>default</default_profile><default_database>default</default_database><mark_cache_size>1000000000</mark_cache_size>
</yandex>
"""
USERS = """<yandex>
<profiles><default><max_threads>4</max_threads></default></profiles><quotas><default></default></quotas>
<users><default><password></password><networks><ip>127.0.0.1</ip></networks><profile>default</profile><quota>default</quota></default></users>
</yandex>
"""
# A null makes a comparison null, which no row is selected by.
PREDICATES = ("a > 500", "b < 100 and d = 7", "c >= 500000 or a < 100", "not ifNull(b = 5, 0)")
# The lower of two middle numbers.
TOTALS = (
    "concat('count ', toString(count()))",
    "concat('sum ', toString(ifNull(sum(c), 0)))",
    "concat('value ', toString(min(b)))",
    "concat('value ', toString(max(c)))",
    "concat('value ', toString(quantileExact(0.49999999)(a)))",
)
COLUMNS = "a UInt32, b Nullable(UInt32), c UInt32, d UInt32"


def find():
    """Returns the server's program and the client's, or none where one is not installed."""
    programs = [shutil.which(f"clickhouse-{part}", path=os.environ["PATH"] + ":/usr/sbin") for part in ("server", "client")]
    return programs if all(programs) else None


def write(path, text):
    with open(path, "w", encoding="utf-8") as out:
        out.write(text)


def with_nulls(room, path):
    """Writes a copy of a row file, in which a null is as the server reads it, and returns its path."""
    copy = os.path.join(room, os.path.basename(path))
    with open(path, encoding="utf-8") as rows:
        write(copy, rows.read().replace(",,", ",\\N,"))
    return copy


def script(room, paths, client):
    """Writes what is timed: the table is made, a client for each file fills it, and one client asks."""
    call = f"{client} --host 127.0.0.1 --port {PORT}"
    queries = ";\n".join(f"select {total} from t where {predicate}" for total in TOTALS for predicate in PREDICATES)
    write(f"{room}/queries", queries + ";\n")
    lines = [f"{call} --multiquery --query 'drop table if exists t; create table t ({COLUMNS}) engine = Memory'"]
    lines += [f"{call} --query 'insert into t format CSVWithNames' < {path} &" for path in paths]
    lines += ["wait", f"{call} --multiquery < {room}/queries"]
    write(f"{room}/run", "\n".join(lines) + "\n")
    return ["sh", f"{room}/run"]


@contextlib.contextmanager
def served(room, paths):
    """Starts a server below a folder, gives the command that is timed, and stops the server."""
    server, client = find()
    room = os.path.join(room, "clickhouse")
    os.makedirs(f"{room}/data")
    os.makedirs(f"{room}/tmp")
    write(f"{room}/config.xml", CONFIG.format(room=room, port=PORT))
    write(f"{room}/users.xml", USERS)
    started = subprocess.Popen(
        [server, f"--config-file={room}/config.xml"], stdin=subprocess.DEVNULL, stdout=subprocess.DEVNULL, stderr=subprocess.DEVNULL
    )
    try:
        for _ in range(100):
            asked = [client, "--host", "127.0.0.1", "--port", str(PORT), "--query", "select 1"]
            if subprocess.run(asked, stdin=subprocess.DEVNULL, stdout=subprocess.DEVNULL, stderr=subprocess.DEVNULL).returncode == 0:
                break
            time.sleep(0.1)
        yield script(room, [with_nulls(room, path) for path in paths], client)
    finally:
        started.terminate()
        started.wait()
