"""A database with version 0.3 of the extension, whose functions are those of this one, is updated: it has then what a new database has."""

import pathlib

import pytest
from server import SOURCES, config
from test_from_0_2 import PARTS


@pytest.fixture(name="script")
def script_of_version_0_3(server):
    """That of this version: it has each name of 0.3."""
    placed = pathlib.Path(f"{server.root}{config('sharedir')}/extension/mergejoin--0.3.sql")
    placed.write_text((SOURCES / "sql/mergejoin.sql").read_text("utf-8"), "utf-8")
    yield placed
    placed.unlink()


def test_a_database_that_is_updated_has_what_a_new_one_has(server, script):
    made = server.ask_each(["CREATE DATABASE earlier;\n\\c earlier\nCREATE EXTENSION mergejoin VERSION '0.3'", PARTS])
    updated = server.ask_each(["\\c earlier\nALTER EXTENSION mergejoin UPDATE", PARTS, "SELECT extversion FROM pg_extension WHERE extname = 'mergejoin'"])
    assert script.exists() and made[0] == "" and updated[0] == ""
    assert updated[1] == made[1] == server.ask(f"{PARTS};\n")
    assert updated[2].strip() == "0.4"
