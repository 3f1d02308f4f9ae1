"""The extension for SQLite, which each process that runs tests makes once, and an interpreter whose package has it."""

import pytest
from package import WHEEL, environment, lacks, make_wheel
from sqlite_extension import connected, lacking, made


@pytest.fixture(name="extension", scope="session")
def extension_that_is_made(needs, library, tmp_path_factory):
    needs("make", "cc", lacking=lacking())
    return made(tmp_path_factory.mktemp("sqlite"))


@pytest.fixture(name="connection")
def connection_to_a_database_in_memory(extension):
    connection = connected(extension)
    yield connection
    connection.close()


@pytest.fixture(name="python", scope="session")
def interpreter_with_the_package_and_the_extension(needs, extension, tmp_path_factory):
    needs(lacking=lacks())
    directory = tmp_path_factory.mktemp("python")
    assert make_wheel(directory, MERGEJOIN_SQLITE=str(extension)) == (0, "", "")
    return environment(directory, directory / "made" / WHEEL)
