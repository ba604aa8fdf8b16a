# SPDX-License-Identifier: Apache-2.0
"""The functions of a crate by the names that a check prints, read from its sources as `rt fmt` lays them out."""
import functools
import pathlib
import re

TYPE = re.compile(r"^(?:pub(?:\([a-z]+\))? )?(?:struct|enum) (\w+)", re.M)
FUNCTION = re.compile(r"( {4})?(?:pub(?:\([a-z]+\))? )?(?:const )?(?:unsafe )?fn (\w+)")
IMPL = re.compile(r"impl(?:<.*?>)? (?:(?:\w+::)*(\w+)(?:<.*?>)? for )?(\w+)")
TRAIT = re.compile(r"(?:pub(?:\([a-z]+\))? )?trait (\w+)")


def module_of(path: pathlib.Path, sources: pathlib.Path) -> str:
    """The path of the module that a file holds, and nothing for the root."""
    path = path.relative_to(sources).with_suffix("")
    return "" if str(path) in ("lib", "main") else "::".join(path.parts)


@functools.cache
def functions_of(crate: pathlib.Path) -> set[str]:
    """The names: a function by its module, a method by its type and the module of that, one of a trait by type and trait."""
    sources = crate / "src"
    files = {module_of(path, sources): path.read_text() for path in sources.rglob("*.rt")}
    types = {name: module for module, text in files.items() for name in TYPE.findall(text)}
    names = set()
    for module, text in files.items():
        owner: list[str] = []
        for line in text.splitlines():
            if found := IMPL.match(line):
                owner = [types.get(found[2], module), found[2] + (found[1] or "")]
            elif found := TRAIT.match(line):
                owner = [module, found[1]]
            elif found := FUNCTION.match(line):
                names.add("::".join(filter(None, [*(owner if found[1] else [module]), found[2]])))
    return names


def is_named(wanted: str, names: set[str]) -> bool:
    """Whether `--only` finds something by this word: a function, the end of its name, or a module or type with functions."""
    return any(name == wanted or name.endswith(f"::{wanted}") or name.startswith(f"{wanted}::") for name in names)
