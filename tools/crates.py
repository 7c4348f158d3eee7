"""Reads crates.txt: each crate of the repository with what it stands on."""
import pathlib

TOP = pathlib.Path(__file__).resolve().parent.parent


def heads_and_deps():
    with open(TOP / 'crates.txt', encoding='utf-8') as file:
        lines = [line.split(':') for line in file if line.strip() and not line.startswith('#')]
    return [(head.split(), deps.split()) for head, deps in lines]


def crates():
    """Each crate of the repository with those that it stands on, and of the kit's, lowest first."""
    return {head[0]: deps for head, deps in heads_and_deps()}


def programs():
    """The crates that are programs or libraries for C."""
    return [head[0] for head, _ in heads_and_deps() if 'staticlib' in head or (TOP / 'crates' / head[0] / 'src/main.rt').exists()]


def below(crate, deps, found=None):
    """The crates of the repository that a crate stands on, however far below, each behind those that it stands on."""
    found = [] if found is None else found
    for dep in deps[crate]:
        if dep in deps and dep not in found:
            below(dep, deps, found)
            found.append(dep)
    return found
