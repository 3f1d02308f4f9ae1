"""A fresh root of the distribution, made by debootstrap, in which the steps of a page are run by chroot, each block in a shell of its own. What
is mounted there, and what runs there, is gone with the one process that begins it, which has a namespace of its own for both.
"""

import re
import shutil
import subprocess
import typing
import urllib.error
import urllib.request

MIRROR, SUITE, USER, DIRECTORY = "http://deb.debian.org/debian", "bookworm", "ada", "home/ada/files"
# The kilobytes that each process there may have, and the seconds that all of it may take.
MEMORY, LIMIT = 8 * 1024 * 1024, 900
PATHS = {"#": ("root", "/root", "/usr/local/sbin:/usr/local/bin:/usr/sbin:/usr/bin:/sbin:/bin"),
         "$": (USER, f"/home/{USER}", "/usr/local/bin:/usr/bin:/bin")}
# What a person answers to apt-get, and what makes dpkg wait for the disk less often.
ANSWERS = {"etc/apt/apt.conf.d/yes": 'APT::Get::Assume-Yes "true";\n', "etc/dpkg/dpkg.cfg.d/fast": "force-unsafe-io\n"}
DRIVER = f"""ulimit -v {MEMORY}
for block in /blocks/*.sh; do bash "$block" </dev/null; done
"""


class Step(typing.NamedTuple):
    command: str
    shown: str  # what the page shows below it


class Block(typing.NamedTuple):
    prompt: str
    steps: list[Step]
    text: str  # as it is in the page


def blocks(page):
    """Gives each part of a page that is run, and of each file that it shows the name and the text, in their order."""
    for kind, text in re.findall(r"^```(.*)\n((?:.*\n)*?)```$", page, re.M):
        if kind == "console fresh-root":
            yield block(text)
        elif found := re.fullmatch(r"\w+ ([\w/]+\.\w+)", kind):
            yield found[1], text


def block(text):
    prompt, steps = text[0], []
    for command, shown in re.findall(rf"^{re.escape(prompt)} (.*\n(?:> .*\n)*)((?:(?!{re.escape(prompt)} ).*\n)*)", text, re.M):
        steps.append(Step(command.replace("\n> ", "\n"), shown))
    assert prompt in PATHS and steps and text.startswith(f"{prompt} "), f"this is no block of commands of one user:\n{text}"
    return Block(prompt, steps, text)


def lacking():
    """Gives why there can be no such root here, or nothing."""
    if subprocess.run(["unshare", "--mount", "--pid", "--fork", "true"], check=False, stderr=subprocess.DEVNULL).returncode != 0:
        return "only root can make a fresh root"
    try:
        urllib.request.urlopen(f"{MIRROR}/dists/{SUITE}/Release", timeout=20).close()
    except (urllib.error.URLError, OSError) as error:
        return f"the mirror {MIRROR} does not answer: {error}"
    return None


def make(root):
    """Makes the root, with a user."""
    words = ["debootstrap", "--variant=minbase", SUITE, root, MIRROR]
    done = subprocess.run(words, stdin=subprocess.DEVNULL, stdout=subprocess.PIPE, stderr=subprocess.STDOUT, text=True, timeout=LIMIT, check=False)
    assert done.returncode == 0, done.stdout[-3000:]
    for name, text in ANSWERS.items():
        (root / name).write_text(text, "utf-8")
    made = f"useradd --create-home --shell /bin/bash {USER} && chmod 700 /home/{USER} && install -d -o {USER} -g {USER} /{DIRECTORY}"
    assert inside(root, made) == (0, "")


def inside(root, line):
    """Runs a line of bash there as root, and gives its status and what it prints. All that it began ends with it."""
    apart = ["unshare", "--mount", "--pid", "--fork", "--kill-child", f"--mount-proc={root}/proc", "chroot", root, "/usr/bin/env", "-i"]
    _, home, path = PATHS["#"]
    words = [*apart, f"HOME={home}", f"PATH={path}", "LANG=C.UTF-8", "DEBIAN_FRONTEND=noninteractive", "bash", "-c", line]
    done = subprocess.run(words, stdin=subprocess.DEVNULL, stdout=subprocess.PIPE, stderr=subprocess.STDOUT, timeout=LIMIT, check=False)
    return done.returncode, done.stdout.decode("utf-8", "replace")


def commands(number, part):
    """Gives what the shell of a block reads: what each step prints goes to a file of its own, and then its status to another."""
    lines = [f"cd /{DIRECTORY}"]
    for step, (command, _) in enumerate(part.steps):
        lines += [f"exec >/blocks/{number:02}-{step} 2>&1", command.rstrip(), f"echo $? >/blocks/{number:02}-{step}.status"]
    return "\n".join([*lines, ""])


def script(number, part, packages):
    """Gives what root runs for a part: the files that a block names are put there first, as if they were fetched."""
    if not isinstance(part, Block):
        name, text = part
        return (f"cd /{DIRECTORY} && mkdir -p $(dirname {name}) && cat >{name} <<'END OF FILE'\n{text}END OF FILE\n"
                f"chown -R {USER}:{USER} {name.partition('/')[0]}\n")
    user, home, path = PATHS[part.prompt]
    named = [it.name for it in sorted(packages.iterdir()) if re.search(rf"(?<![\w.-]){re.escape(it.name)}(?![\w-]|\.\w)", part.text)]
    lines = [f"install -o {USER} -g {USER} -m 644 /packages/{name} /{DIRECTORY}" for name in named]
    shell = f"setpriv --reuid {user} --regid {user} --init-groups env HOME={home} PATH={path} USER={user} bash /blocks/{number:02}.steps"
    return "\n".join([*lines, shell, ""])


def run(root, parts, packages):
    """Runs all parts of a page in their order, and gives of each block what each of its steps ended with and printed."""
    shutil.copytree(packages, root / "packages")
    (root / "blocks").mkdir()
    (root / "blocks").chmod(0o1777)
    for number, part in enumerate(parts):
        (root / f"blocks/{number:02}.sh").write_text(script(number, part, packages), "utf-8")
        if isinstance(part, Block):
            (root / f"blocks/{number:02}.steps").write_text(commands(number, part), "utf-8")
    said = inside(root, DRIVER)[1]
    return {number: [ended(root / f"blocks/{number:02}-{step}", said) for step in range(len(part.steps))]
            for number, part in enumerate(parts) if isinstance(part, Block)}


def ended(path, said):
    """Gives the status of a step and what it printed. One that was not run has none."""
    status = path.with_suffix(".status")
    return (int(status.read_text()), path.read_text("utf-8", "replace")) if status.exists() else (None, said)
