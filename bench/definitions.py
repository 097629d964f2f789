#!/usr/bin/env python3
"""Counts the definitions that definitions rest on, and their lines without comments.

    bench/definitions.py NAME ..

A name is that of a definition in a file of specs/, with crate and file before it, as at_world.Machine.IsRun. All that
it names is looked up, as far as it stands in a file of specs/. Types of the code that they name are looked up in src/,
with the types of their fields; not those that a definition sees as one value, by an `impl Model`. One line a file
tells how many lines count there, without comments and attributes, and of which definitions or types. The last two
lines have the sums. A name that no file has ends the program.
"""

import collections
import glob
import os
import re
import sys

USE = re.compile(r"^(?:pub )?use Rattle\.([\w.]+?)(?:\.\{([^}]*)\}| as (\w+))?$", re.MULTILINE)
HEAD = re.compile(r"^(?:(?:abbrev|unfoldable) )?(?:pub )?(?:record |data )?([^\s:({]+)")
WORD = re.compile(r"[A-Za-z_][\w-]*(?:\.[A-Za-z_][\w-]*)?")

# A type of the code, as the module is called that has it or its variants.
DECLARED = re.compile(r"^(\w+)\.specs\.declared\.(?:([\w.]+?)\.)?(?!TheVariants$)(\w+?)(?:\.TheVariants)?$")
TYPE = re.compile(r"^pub(?:\(crate\))? (?:struct|enum) (\w+)")
MODEL = re.compile(r"^impl.* Model for (\w+)", re.MULTILINE)
USED_TYPES = re.compile(r"^(?:pub )?use (\w+)::([^;]*);", re.MULTILINE)
MODULE = re.compile(r"^(?:pub )?mod (\w+);", re.MULTILINE)
CAPITAL = re.compile(r"\b[A-Z]\w*")

Module = collections.namedtuple("Module", "imports modules definitions")


def module_of(path):
    """The name of the module in a file crates/NAME/specs/FILE.antt."""
    _, crate, specs, *rest = os.path.splitext(path)[0].split("/")
    return ".".join([crate, specs, *rest])


def read(path):
    """What a file names by its use lines, and the lines of each definition that stands in it."""
    with open(path, encoding="utf-8") as file:
        text = file.read()
    imports, modules, definitions = {}, {}, {}
    for module, names, name in USE.findall(text):
        for entry in filter(None, (entry.strip() for entry in names.split(","))):
            there, _, here = entry.partition(" as ")
            imports[here or there] = module, there
        if name:
            modules[name] = module
    for part in re.split(r"\n\s*\n", text):
        lines = [line for line in part.splitlines() if line.strip() and not line.lstrip().startswith("--")]
        lines = [line for line in lines if not USE.match(line)]
        if lines:
            definitions.setdefault(HEAD.match(lines[0].lstrip())[1], []).extend(lines)
    return Module(imports, modules, definitions)


def find(all_modules, module, name):
    """Where a name stands that a module uses; nothing if that is in no file of specs/."""
    while module in all_modules:
        if name in all_modules[module].definitions:
            return module, name
        if name not in all_modules[module].imports:
            break
        module, name = all_modules[module].imports[name]
    return None


def named_by(all_modules, module, name):
    """The definitions that a definition names."""
    here = all_modules[module]
    for word in set(WORD.findall("\n".join(here.definitions[name]))):
        first, _, second = word.partition(".")
        yield find(all_modules, module, first)
        if second and first in here.modules:
            yield find(all_modules, here.modules[first], second)


def types_in(path):
    """The types that a source declares, with their lines, but for those that are seen as one value."""
    with open(path, encoding="utf-8") as file:
        text = file.read()
    models, types, last = set(MODEL.findall(text)), {}, None
    for line in text.splitlines():
        start = TYPE.match(line)
        if start and start[1] not in models:
            last = types.setdefault(start[1], [])
        if last is not None:
            if line.strip() and not line.lstrip().startswith(("//", "#[")):
                last.append(line)
            if line == "}" or (start and line.endswith(";")):
                last = None
    return types


def crates_of_types(path):
    """The crate that each capitalized name of a source comes from, by its use lines."""
    with open(path, encoding="utf-8") as file:
        text = file.read()
    crate = path.split("/")[1]
    own = {"crate", "super", "self", *MODULE.findall(text)}
    found = {}
    for source, names in USED_TYPES.findall(text):
        for name in CAPITAL.findall(names):
            found[name] = crate if source in own else source
    return found


def types_named_by(module, text):
    """The types of the code that a definition names, as crate, file and name."""
    for word in set(WORD.findall(text)):
        first, _, second = word.partition(".")
        places = [module.imports[first][0]] if first in module.imports else []
        places += [module.modules[first]] if second and first in module.modules else []
        for place in filter(None, map(DECLARED.match, places)):
            yield place[1], (place[2] or "lib").replace(".", "/"), place[3]


def count_types(named, all_types):
    """The lines of these types and of those of their fields, by file."""
    files = collections.defaultdict(dict)
    waiting = [(f"crates/{crate}/src/{file}.rt", name) for crate, file, name in named]
    while waiting:
        path, name = waiting.pop()
        if name in files[path] or name not in all_types.get(path, {}):
            continue
        lines = all_types[path][name]
        files[path][name] = len(lines)
        crates = crates_of_types(path)
        for word in set(CAPITAL.findall("\n".join(lines))) - {name}:
            crate = crates.get(word, path.split("/")[1])
            there = [path] if word in all_types[path] else sorted(all_types)
            waiting.extend((it, word) for it in there if it.split("/")[1] == crate and word in all_types[it])
    return {path: types for path, types in files.items() if types}


def main(names):
    all_modules = {module_of(path): read(path) for path in glob.glob("crates/*/specs/**/*.antt", recursive=True)}
    waiting = []
    for name in names:
        module, _, last = name.rpartition(".")
        place = find(all_modules, module.replace(".", ".specs.", 1), last)
        if place is None:
            sys.exit(f"there is no definition {name}")
        waiting.append(place)
    files = collections.defaultdict(dict)
    types = set()
    while waiting:
        module, name = waiting.pop()
        if name not in files[module]:
            here = all_modules[module]
            files[module][name] = len(here.definitions[name])
            waiting.extend(filter(None, named_by(all_modules, module, name)))
            types.update(types_named_by(here, "\n".join(here.definitions[name])))
    all_types = {path: types_in(path) for path in glob.glob("crates/*/src/**/*.rt", recursive=True)}
    counted = count_types(types, all_types)
    for module in sorted(files):
        print(f"{module.replace('.specs', '', 1)}, {sum(files[module].values())}: {', '.join(sorted(files[module]))}")
    for path in sorted(counted):
        print(f"{path}, {sum(counted[path].values())}: {', '.join(sorted(counted[path]))}")
    for counts, kind in (files, "definitions"), (counted, "types"):
        print(f"{sum(sum(it.values()) for it in counts.values())} lines of {sum(map(len, counts.values()))} {kind}")


if __name__ == "__main__":
    os.chdir(os.path.join(os.path.dirname(os.path.abspath(__file__)), ".."))
    main(sys.argv[1:])
