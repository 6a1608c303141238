#!/usr/bin/env python3
"""Gives crates one file that passes on every name that their files cite from elsewhere.

usage: fold_imports.py [CRATE...]

A crate with four proof files or more gets `proofs/Prelude.antt` for its proofs. A room, and `mfu_top`, gets `specs/Prelude.antt` for the contracts
in its sources. Without names the script goes through all crates. Run it at the top of the repository after new imports, then `rt fmt` in each crate
that changed. A second run changes nothing. Some imports stay in their file: those of the crate's own proofs, or of its own `specs/` in a source,
those under another name (`as`), operators in a source, those that a line `unfolding` names, and those whose name most files of the crate take from
another module.
"""
import collections
import os
import re
import sys

USE = re.compile(r"^(pub |ghost )?use ([^\s{]+?)\.\{(.*)\};?$")
WIDTH = 160
HEAD = "-- The names from elsewhere that the %s of this crate cite, passed on from one place. Declares nothing."
# A source takes the operators of the library from the library itself, as the gate asks.
OPERATORS = "ghost use Rattle.std.specs.Prelude."
# The rooms take the usual names from here.
SHARED = "Rattle.run_report.specs.Prelude"


def crate_order():
    """The place of each crate in crates.txt, and the crates whose contracts get a prelude."""
    names, rooms, section = [], {"mfu_top"}, ""
    with open("crates.txt", encoding="utf8") as file:
        for line in file:
            if line.startswith("#"):
                section = line[1:].strip()
            line = line.split("#")[0].strip()
            if line:
                names.append(line.split(":")[0].split()[0])
                if section == "rooms":
                    rooms.add(names[-1])
    return {name: place for place, name in enumerate(names)}, rooms


def files_of(crate, kind):
    """The files of a crate that take names from the prelude of `kind`."""
    top = os.path.join("crates", crate, "proofs" if kind == "proofs" else "src")
    found = []
    for folder, _, names in os.walk(top):
        for name in names:
            if kind == "specs":
                fits = name.endswith(".rt")
            else:
                fits = name.endswith(".antt") and name != "Goals.antt" and not (folder == top and name in ("Lib.antt", "Prelude.antt"))
            if fits:
                found.append(os.path.join(folder, name))
    return sorted(found)


def read(path):
    with open(path, encoding="utf8") as file:
        return file.read().split("\n")


def write(path, lines):
    text = "\n".join(lines)
    if os.path.exists(path) and open(path, encoding="utf8").read() == text:
        return False
    with open(path, "w", encoding="utf8") as file:
        file.write(text)
    return True


def rows(start, module, names):
    """Import lines of `names`, none longer than WIDTH."""
    lines, row, end = [], [], ";" if start == "ghost use" else ""
    for name in names:
        if row and len(f"{start} {module}.{{{', '.join(row + [name])}}}{end}") > WIDTH:
            lines.append(f"{start} {module}.{{{', '.join(row)}}}{end}")
            row = []
        row.append(name)
    lines.append(f"{start} {module}.{{{', '.join(row)}}}{end}")
    return lines


def names_of(match):
    return [name.strip() for name in match.group(3).split(",") if name.strip()]


def passed_on(path):
    """The names that a prelude passes on, each with its module."""
    names = {}
    if os.path.exists(path):
        for line in read(path):
            match = USE.match(line)
            if match:
                for name in names_of(match):
                    names[name] = match.group(2)
    return names


def origin(module, name):
    """The module from which `name` comes, where `module` may be a prelude that passes it on."""
    while module.endswith(".specs.Prelude") and not module.startswith("Rattle.std."):
        module = passed_on(f"crates/{module.split('.')[1]}/specs/Prelude.antt").get(name, "")
    return module


def imports(lines, start, own, prelude, known):
    """The names that a file takes from elsewhere and that a prelude may pass on, each with its module, and the other lines."""
    unfolded = {word for line in lines if line.strip().startswith("unfold") for word in line.split()[1:]}
    taken, left = {}, []
    for line in lines:
        match = USE.match(line)
        skipped = not match or not line.startswith(start)
        if skipped or (match.group(2).startswith(own) and match.group(2) != prelude):
            left.append(line)
            continue
        stay = []
        for name in names_of(match):
            module = known.get(name, match.group(2)) if match.group(2) == prelude else match.group(2)
            if " as " in name or name in unfolded or (start == "ghost use" and "◌" in name):
                stay.append((module, name))
            else:
                taken[name] = module
        for module in dict.fromkeys(module for module, _ in stay):
            left.extend(rows(start, module, [name for where, name in stay if where == module]))
    return taken, left


def fold(crate, order, kind):
    files = files_of(crate, kind)
    start = "use" if kind == "proofs" else "ghost use"
    own, prelude = f"Rattle.{crate}.{kind}.", f"Rattle.{crate}.{kind}.Prelude"
    target = os.path.join("crates", crate, kind, "Prelude.antt")
    known = passed_on(target)
    shared = {name: origin(SHARED, name) for name in passed_on("crates/run_report/specs/Prelude.antt")} if kind == "specs" else {}
    taken, rest, counts = {}, {}, collections.defaultdict(collections.Counter)
    for path in files:
        taken[path], rest[path] = imports(read(path), start, own, prelude, known)
        for name, module in taken[path].items():
            if name in shared and origin(module, name) == shared[name]:
                taken[path][name] = module = SHARED
            counts[name][module] += 1
    home = {name: max(modules.items(), key=lambda pair: (pair[1], pair[0]))[0] for name, modules in counts.items()}
    changed = 0
    for path in files:
        cited = [name for name, module in taken[path].items() if home[name] == module]
        direct = collections.defaultdict(list)
        for name, module in taken[path].items():
            if home[name] != module:
                direct[module].append(name)
        heads = rows(start, prelude, cited) if cited else []
        for module, names in direct.items():
            heads.extend(rows(start, module, names))
        lines = rest[path]
        place = next((number for number, line in enumerate(lines) if not line.startswith(("--", "//!", OPERATORS))), len(lines))
        changed += write(path, lines[:place] + heads + lines[place:])

    def rank(module):
        parts = module.split(".")
        library = parts[1] if len(parts) > 1 else ""
        return (0 if library not in order else 1, order.get(library, 0), module)

    lines = [HEAD % ("proofs" if kind == "proofs" else "contracts")]
    for module in sorted(set(home.values()), key=rank):
        lines.extend(rows("pub use", module, sorted(name for name in home if home[name] == module)))
    changed += write(target, lines + [""])
    library = os.path.join("crates", crate, kind, "Lib.antt")
    entries = read(library)
    if "mod Prelude" not in entries and "pub mod Prelude" not in entries:
        write(library, ["mod Prelude"] + entries if kind == "proofs" else entries[:-1] + ["pub mod Prelude", ""])
        changed += 1
    return changed


def main():
    order, rooms = crate_order()
    for crate in sys.argv[1:] or order:
        changed = 0
        if len(files_of(crate, "proofs")) >= 4:
            changed += fold(crate, order, "proofs")
        if crate in rooms:
            changed += fold(crate, order, "specs")
        if changed:
            print(f"{crate}: {changed} files")


if __name__ == "__main__":
    main()
