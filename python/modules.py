"""A modules file: modules that a command has at hand beside those of its genesis file (docs/INPUT.md, "Modules file")."""
import re

from network import MOST_MODULE_BYTES, PROFILES, USUAL_PROFILE, Mistake, ask, quoted, reason, text_of
from regtuma.table import MOST
from remarks import of_file

# What the program says of a module that it refuses.
REFUSED = re.compile(r"^(refused .*)$", re.MULTILINE)


def modules_file(words: list[str], program: str) -> str:
    """The text of a file with the modules of these words, each the name of a file, and `:2` where its profile is 2."""
    if len(words) > MOST["held_modules"]:
        raise Mistake(f"a modules file has up to {MOST['held_modules']} modules, and {len(words)} are named")
    return text_of([module(*divided(word), program) for word in words])


def divided(word: str) -> tuple[str, int]:
    """The name of the file, and the profile: 1 where none is named."""
    name, mark, profile = word.rpartition(":")
    return (name, int(profile)) if mark and profile in map(str, PROFILES) else (word, USUAL_PROFILE)


def module(name: str, profile: int, program: str) -> dict[str, object]:
    """An entry of the file, of a module that the program takes."""
    try:
        with open(name, "rb") as file:
            data = file.read(MOST_MODULE_BYTES + 1)
    except OSError as error:
        raise Mistake(f"the module {quoted(name)} cannot be read: {reason(error)}") from error
    said = ask(program, "check", name, "--profile", profile)
    if said.status:
        found = REFUSED.search(said.out)
        why = "; ".join([found[1] if found else f"status {said.status}", *of_file("MODULE", name)])
        raise Mistake(f"{quoted(name)} is no valid module of profile {profile}: {why}")
    return {"module": data.hex(), "profile": profile}
