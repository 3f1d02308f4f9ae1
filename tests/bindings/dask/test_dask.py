"""Patches are joined by Dask, the distribution's own, in an environment with the package: the tests of bindings/python/dask_tests
pass, among them a cluster of processes with hash seeds that differ, of which one worker is killed, and the examples of
docs/MANY-MACHINES.md. And on a cluster of two hosts, each a network namespace of its own, where the machine allows that, each part of a
log is read twice.
"""

import contextlib
import os
import subprocess

import pytest
from package import SETTING, SOURCES, environment, lacks, passes, run

TESTS = SOURCES / "dask_tests"
HOSTS = {"one": "10.86.17.1", "two": "10.86.17.2"}
PORT = 8786


@pytest.fixture(name="python", scope="module")
def interpreter_with_the_package_and_dask(needs, wheel, tmp_path_factory):
    needs(lacking=lacks("dask", "distributed"))
    return environment(tmp_path_factory.mktemp("dask"), wheel, "--system-site-packages")


@pytest.mark.parametrize("path", sorted(TESTS.glob("test_*.py")), ids=lambda path: path.stem)
def test_of_joins(python, path):
    passes(python, path)


def ip(*words):
    """Runs the command of that name, and gives whether it ended well."""
    return subprocess.run(["ip", *words], capture_output=True, check=False).returncode == 0


@pytest.fixture(name="hosts")
def two_hosts(needs):
    """What runs words on each of two network namespaces that reach each other."""
    needs("ip")
    names = {host: f"mergejoin-{os.getpid()}-{host}" for host in HOSTS}
    one, two = names.values()
    lines = [["netns", "add", one], ["netns", "add", two],
             ["-n", one, "link", "add", "joined", "type", "veth", "peer", "name", "joined", "netns", two]]
    for host, name in names.items():
        lines += [["-n", name, "address", "add", f"{HOSTS[host]}/24", "dev", "joined"],
                  ["-n", name, "link", "set", "joined", "up"], ["-n", name, "link", "set", "lo", "up"]]
    try:
        needs(lacking=None if all(ip(*line) for line in lines) else "the machine has no network namespaces")
        yield {host: ["ip", "netns", "exec", name] for host, name in names.items()}
    finally:
        for name in names.values():
            ip("netns", "delete", name)


def test_a_log_that_two_hosts_read_is_joined_as_one_process_joins_it(python, hosts, tmp_path):
    """A scheduler and a worker are on one host, a worker on the other. The pairs that conflict are found there too."""
    address = f"tcp://{HOSTS['one']}:{PORT}"
    lines = [("one", "scheduler", "--port", str(PORT))]
    lines += [(host, "worker", address, "--no-nanny", "--nthreads", "1", "--local-directory", tmp_path / host) for host in HOSTS]
    with contextlib.ExitStack() as running:
        for host, kind, *more in lines:
            words = [python, "-B", "-m", f"distributed.cli.dask_{kind}", *more, "--host", HOSTS[host], "--no-dashboard"]
            process = subprocess.Popen([*hosts[host], *words], env={**os.environ, **SETTING}, cwd=tmp_path,
                                       stdout=subprocess.DEVNULL, stderr=subprocess.DEVNULL)
            running.callback(process.wait, 30)
            running.callback(process.terminate)
        words = [python, "-B", TESTS / "hosts.py", address, tmp_path / "log", *HOSTS.values()]
        status, out, err = run(tmp_path, *hosts["one"], *words)
    assert status == 0, out + err
