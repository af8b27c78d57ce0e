"""The names that Fossil gives by its hardened SHA-1. It is plain SHA-1 but for texts with a known attack, which it names otherwise."""
from artifacts import place_in
from moving import counted, run

AT_ONCE = 500


def hardened_names(folder: str, names: list[str]) -> dict[str, str]:
    """The hardened SHA-1 of artifacts that Fossil wrote into a folder, as Fossil itself works it out."""
    found = {}
    for begin in counted(range(0, len(names), AT_ONCE)):
        part = names[begin:begin + AT_ONCE]
        lines = run(['fossil', 'sha1sum', *(place_in(folder, name) for name in part)]).decode('utf-8', 'replace').splitlines()
        found |= {name: line.split()[0] for name, line in zip(part, lines, strict=True)}
    return found


def is_hardened(folder: str, name: str) -> bool:
    """Whether an artifact's name is the hardened SHA-1 of its bytes."""
    return hardened_names(folder, [name])[name] == name
