"""What docs/SQLITE.md says of an acknowledgement after a checkpoint, in WAL with NORMAL: as the page has it, what is acknowledged is in the file of
the database itself, whatever becomes of what SQLite has not synced. Also while another connection reads what was there before.
"""

import re
import shutil

import pytest
from sqlite_extension import connected
from sqlite_page import PAGE, statements_with

TABLES = statements_with("CREATE TABLE starts").partition("INSERT INTO")[0]
(ROW,) = re.findall(r"^\| WAL \| NORMAL \|.*$", PAGE, re.M)
(PRAGMA,) = re.findall(r"`(PRAGMA .*?)`", ROW)
IS_LOOKED_AT = "returns 0 and twice the same number" in ROW


def is_acknowledged(connection):
    status, frames, moved = connection.execute(PRAGMA).fetchone()
    return not IS_LOOKED_AT or status == 0 and frames == moved


def in_the_file(extension, file):
    """Gives the patches of a copy of the file alone, without its journal."""
    copy = file.with_name("copy.db")
    shutil.copy(file, copy)
    connection = connected(extension, copy)
    found = [patch for (patch,) in connection.execute("SELECT patch FROM patches ORDER BY patch")]
    connection.close()
    copy.unlink()
    return found


@pytest.fixture(name="file")
def database_with_a_patch(extension, tmp_path):
    connection = connected(extension, tmp_path / "replica.db", isolation_level=None)
    connection.executescript(f"PRAGMA journal_mode = WAL; {TABLES} INSERT INTO patches VALUES ('notes', '1');")
    connection.close()
    return tmp_path / "replica.db"


def opened(extension, file):
    connection = connected(extension, file, isolation_level=None, timeout=0)
    connection.execute("PRAGMA synchronous = NORMAL")
    return connection


def test_what_is_acknowledged_is_in_the_file(extension, file):
    writer = opened(extension, file)
    for number in range(2, 5):
        writer.execute("INSERT INTO patches VALUES ('notes', ?)", [str(number)])
        assert in_the_file(extension, file) != [str(it + 1) for it in range(number)]
        assert is_acknowledged(writer)
        assert in_the_file(extension, file) == [str(it + 1) for it in range(number)]
    writer.close()


def test_while_another_reads_nothing_is_acknowledged_that_is_not_there(extension, file):
    """A checkpoint that waits for nobody reports no error then, and moves nothing."""
    reader, writer = opened(extension, file), opened(extension, file)
    reader.execute("BEGIN")
    assert reader.execute("SELECT patch FROM patches").fetchall() == [("1",)]
    writer.execute("INSERT INTO patches VALUES ('notes', '2')")
    status, frames, moved = writer.execute("PRAGMA wal_checkpoint").fetchone()
    assert status == 0 and frames > moved and in_the_file(extension, file) == ["1"]
    assert not is_acknowledged(writer) and in_the_file(extension, file) == ["1"]
    reader.execute("COMMIT")
    assert is_acknowledged(writer) and in_the_file(extension, file) == ["1", "2"]
    reader.close()
    writer.close()
