"""What is seeded in a copy of the sources, one at a time, is reported by tools/trusted in its words; and what is right is let pass."""

import re
import shutil

import pytest
from calls import TOP, run

CRATE = "crates/mp_merge"
PROOF = "ghost use Rattle.mp_merge.proofs.Outcome.{one_outcome as seeded};\n"
PRIVATE = re.findall(r"^abbrev pub (\w+)", (TOP / CRATE / "specs/Private/Clashes.antt").read_text("utf-8"), re.M)[0]
HIDDEN = f"ghost use Rattle.mp_merge.specs.Private.Clashes.{{{PRIVATE} as seeded}};\n"
OF_PROOF = "Rattle.mp_merge.proofs.Outcome.one_outcome is a word of the proofs, and is cited by"
OF_PRIVATE = f"Rattle.mp_merge.specs.Private.Clashes.{PRIVATE} is cited by"


def clause(word):
    """A clause of a public function cites the word."""
    return "src/joining.rt", r"^(pub fn join\b.*\n)", rf"{word}\1    ensures seeded {{ seeded result }}\n"


def definition(word):
    """So does a definition that public clauses cite."""
    return "specs/Join.antt", r"^(pub record IsJoin .*\n)", rf"{word}\1  pub seeded : seeded j\n"


def member(word, head, name="view", before=""):
    """So does an `impl`."""
    return "src/fault.rt", r"\Z", f"\n{before}impl {head} {{\n    {word}    ghost {name} = {{ λ v. seeded v }};\n}}\n"


# What is seeded, and what is to be said of it, if anything.
SEEDS = {
    "a proof in a clause": (clause(PROOF), f"{OF_PROOF} mp_merge::join"),
    "a private word in a clause": (clause(HIDDEN), f"{OF_PRIVATE} mp_merge::join"),
    "a proof in a definition": (definition(PROOF.removeprefix("ghost ")), f"{OF_PROOF} Rattle.mp_merge.specs.Join.IsJoin"),
    "a conversion": (member(HIDDEN, "From<AllocError> for JoinFault", "from_gives"), f"{OF_PRIVATE} mp_merge: from_gives of From for JoinFault"),
    "a model": (member(HIDDEN, "Model for JoinFault"), f"{OF_PRIVATE} mp_merge: view of Model for JoinFault"),
    "a model of a closed type": (member(HIDDEN, "Model for JoinFault", before="pub struct JoinFault {\n    places: u64,\n}\n\n"), None),
}


def says(top):
    """Gives what the tool says of a directory."""
    return run([TOP / "tools/trusted", top])[1].splitlines()


@pytest.fixture(name="copy", scope="module")
def copy_of_the_sources(tmp_path_factory):
    """A copy of what the tool reads, and what it says of it."""
    top = tmp_path_factory.mktemp("copy")
    for part in ("crates.txt", "docs/TRUSTED.md"):
        (top / part).parent.mkdir(exist_ok=True)
        shutil.copy(TOP / part, top / part)
    for path in TOP.glob("crates/*/s*/"):
        if path.name in ("src", "specs"):
            shutil.copytree(path, top / path.relative_to(TOP))
    return top, says(top)


@pytest.mark.parametrize("seed", SEEDS)
def test_what_is_seeded_is_reported(copy, seed):
    top, before = copy
    (name, place, seeded), wanted = SEEDS[seed]
    path = top / CRATE / name
    old = path.read_text("utf-8")
    new = re.sub(place, seeded, old, count=1, flags=re.M)
    assert new != old
    path.write_text(new, "utf-8")
    reported = [line for line in says(top) if line not in before]
    path.write_text(old, "utf-8")
    assert wanted in reported if wanted else reported == []
