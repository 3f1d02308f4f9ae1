"""A server with the extension for PostgreSQL (server.py), of which each process that runs tests has its own."""

import pathlib

import pytest
from server import config, lacking, running


def installed():
    """Gives the files of the system's own server."""
    return {path for name in ("pkglibdir", "sharedir") for path in pathlib.Path(config(name)).rglob("*")}


@pytest.fixture(name="server", scope="session")
def server_with_the_extension(needs, library):
    """While it runs, no file of the system's own server comes or goes."""
    needs("pg_virtualenv", "make", "cc", lacking=lacking())
    before = installed()
    with running() as server:
        server.install()
        assert server.ask("CREATE EXTENSION mergejoin;\n") == ""
        yield server
    assert installed() == before


@pytest.fixture(name="is_left_alone", scope="session")
def what_loads_another_extension(server):
    file, source = server.directory / "other_extension.so", pathlib.Path(__file__).with_name("other_extension.c")
    server.run("cc", "-shared", "-fPIC", f"-I{config('includedir-server')}", "-o", file, source)
    load = f"LOAD '{file}'"

    def is_left_alone(statements):
        """Another extension, whose functions have the names of ours, changes no answer, loaded before ours and after."""
        alone = server.ask_each(statements)
        assert server.ask_each([load, *statements]) == ["", *alone]
        assert server.ask_each([*statements, load, *statements]) == [*alone, "", *alone]

    return is_left_alone
