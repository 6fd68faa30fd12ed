#!/usr/bin/env python3
"""Lists the public names of crates/ that no other file uses and the names that a specification or a proof brings in for nothing, and ends with 1 if there is one.

unused.py [CRATE..]    all crates, or the ones named

A name is used where another file brings it in by `use`, writes it behind its module, or calls it; where a `#[tactic(..)]` of a source names it; where the statement of a used name
of its own file, the text of a used definition, or a used ruleset mentions it; and where KEPT says who else reads it.
"""
import pathlib
import re
import sys

CRATES = pathlib.Path(__file__).resolve().parent.parent / "crates"

# A law that stands though the check proves what cited it without it.
UNCITED = "a law that the check no longer needs to be told"

# A law on the definitions' numbers, beside one on what the code answers.
STANDS = "a law of the definitions"

# Names with a reader outside the crates: a folder, a file, or a file and a name.
KEPT = {
    "audit/specs": "the theorems that docs/AUDIT.md names",
    "audit/src/lib.rt": "a crate has a source",
    "laws/src/lib.rt": "a crate has a source",
    "hall/src": "the public calls",
    "hall_file/src": "the public calls",
    "hall_plan/src": "the public calls",
    "hall_route/src": "the public calls",
    "hall_c/src": "the calls for C",
    "home/src": "request 2 of the calls",
    "journey/src": "demand 3 of the calls",
    "reach/src": "demand 3 of the calls",
    "records/src": "the route call on step records",
    "hallroute/specs/Printed.antt": "what the program prints, for its reader",
    "model/specs/FileCosts.antt:two_places": "what 28 says of a file, for its reader",
    "model/specs/FileCosts.antt:places_two": "what 28 says of a file, for its reader",
    "model/specs/FileCosts.antt:read_fills": "what an accepted file gives, for its reader",
    "model/specs/FileOnly.antt:only_file": "what 02 says of a file fixes it, for its reader",
    "model/specs/FileWritten.antt:length_decides": "what read file asks of a written file, for its reader",
    "model/specs/FileWritten.antt:file_most": "the longest file, for its reader",
    "model/specs/FileWritten.antt:room_enough": "the room for any file, for its reader",
    "model/specs/FileWritten.antt:same_floor": "two stores with one file, for their reader",
    "model/specs/PlainFloor.antt:landing_on": "01's landings as plain floor arithmetic, for their reader",
    "model/specs/PlainFloor.antt:landing_moved": "01's landings as plain floor arithmetic, for their reader",
    "model/specs/RouteChosen.antt:chosen_leads": "01's choice of a pair, for its reader",
    "model/specs/RouteChosen.antt:chosen_none": "01's choice of a pair, for its reader",
    "model/specs/WindowRuns.antt:in_order": "01's order of windows, for its reader",
    "fields/specs/Bits.antt:marked_small": UNCITED,
    "fields/specs/Bits.antt:with_open": UNCITED,
    "fields/specs/Bits.antt:with_shut": UNCITED,
    "fields/specs/Bounds.antt:bytes_product": UNCITED,
    "graph/specs/EdgeTable.antt:row_none": UNCITED,
    "graph/specs/Near.antt:near_none": STANDS,
    "graph/specs/Near.antt:near_some": STANDS,
    "graph/specs/Near.antt:other_sector": STANDS,
    "graph/specs/Near.antt:same_sector": STANDS,
    "graph/specs/Reading.antt:room_of": UNCITED,
    "laws/specs/FirstLeast.antt:picked_none": UNCITED,
    "laws/specs/FirstLeast.antt:picked_take": UNCITED,
    "laws/specs/FirstLeast.antt:picked_skip": UNCITED,
    "laws/specs/FirstLeast.antt:foremost_within": UNCITED,
    "laws/specs/Region.antt:header_set": UNCITED,
    "laws/specs/Region.antt:part_put": UNCITED,
    "laws/specs/Region.antt:copied": UNCITED,
    "laws/specs/Table.antt:tabled_at": UNCITED,
    "laws/specs/Table.antt:tabled_fill": UNCITED,
    "laws/specs/Table.antt:tabled_same": UNCITED,
    "laws/specs/Turns.antt:turned_none": UNCITED,
    "laws/specs/Turns.antt:lined_none": UNCITED,
    "laws/specs/Turns.antt:lined_alone": UNCITED,
    "laws/specs/Turns.antt:searchable_in": UNCITED,
    "model/specs/CostsRead.antt:open_off": UNCITED,
    "model/specs/FileCosts.antt:names_other": UNCITED,
    "model/specs/FileCosts.antt:names_own": UNCITED,
    "records/specs/Filling.antt:filled_length": UNCITED,
    "model/specs/Refusals.antt:earlier": STANDS,
    "route/specs/Finding.antt:taken_few": UNCITED,
    "walks/specs/Lines.antt:reached_none": UNCITED,
    "walks/specs/Lines.antt:reached_lt": UNCITED,
    "walks/specs/Lines.antt:reached_room": UNCITED,
    "walks/specs/Showing.antt:row_fits": UNCITED,
}

SPLIT = re.compile(r"[\s(){}\[\],;.⌜⌝⟦⟧:]+")
DECLARED = re.compile(r"^( *)(?:abbrev |unfoldable )?pub (record |data |ruleset )?(\S+)")
USE = re.compile(r"\buse ([^\s{};]+?)(?:\.\{([^}]*)\}| as (\S+?))?;?$")
MODULE = re.compile(r"Rattle\.(\w+)\.(.*)$")
TACTIC = re.compile(r"#\[tactic\(.*?\)\]", re.S)
MARKS = r"(?:pub |abbrev |unfoldable |record |data |ruleset |fn |struct |enum |const )"


def code_of(path):
    """The file's lines without comments."""
    mark = "//" if path.suffix == ".rt" else "--"
    return [re.sub(rf"(^|\s){mark}\s.*$", "", line) for line in path.read_text().splitlines()]


def words(lines):
    return set(SPLIT.split("\n".join(lines)))


def deeper(lines, start, indent):
    """Where the lines that stand deeper than an indentation end."""
    end = start
    while end < len(lines) and (not lines[end].strip() or len(lines[end]) - len(lines[end].lstrip()) > indent):
        end += 1
    return end


def clauses(lines, start):
    """The lines of a definition that follow on its signature."""
    end = start
    while end < len(lines) and lines[end].strip() and not DECLARED.match(lines[end]):
        end += 1
    return lines[start:end]


def declarations(lines):
    """{public name: what a reader of it sees}: its statement, and of a definition its text too. A record's fields belong to the record."""
    out = {}
    inside = 0
    for i, line in enumerate(lines):
        found = DECLARED.match(line)
        if i < inside or not found or found.group(3) in ("mod", "use"):
            continue
        end = deeper(lines, i + 1, len(found.group(1)))
        out[found.group(3)] = words(lines[i:end])
        if found.group(2):
            inside = end
        elif "abbrev" in line or "unfoldable" in line:
            out[found.group(3)] |= words(clauses(lines, end))
    return out


def names_brought(lines):
    """{(crate, module): names} that a file takes from modules of the crates, by name or behind a module's name."""
    out = {}
    text = "\n".join(lines)
    for line in lines:
        found = USE.search(line.strip())
        at = MODULE.match(found.group(1)) if found else None
        if not at:
            continue
        if found.group(2) is None:
            behind = found.group(3) or at.group(2).split(".")[-1]
            names = re.findall(rf"(?<![\w.]){re.escape(behind)}\.([^\s(){{}}\[\],;.]+)", text)
        else:
            names = [name.split(" as ")[0].strip() for name in found.group(2).split(",")]
        out.setdefault(at.groups(), set()).update(names)
    return out


def names_told(path, lines):
    """{(crate, module): names} that the attributes of a source tell the check."""
    out = {}
    for attribute in TACTIC.findall("\n".join(lines)) if path.suffix == ".rt" else []:
        for crate, module, name in re.findall(r"(\w+)::((?:specs|proofs)(?:::\w+)*)::(\w+)", attribute):
            crate = path.relative_to(CRATES).parts[0] if crate == "crate" else crate
            out.setdefault((crate, module.replace("::", ".")), set()).add(name)
    return out


def all_brought(lines):
    used = {}
    for path in lines:
        for found in (names_brought(lines[path]), names_told(path, lines[path])):
            for module, names in found.items():
                used.setdefault(module, set()).update(names)
    return used


def unused_specs(public, used):
    """The public names that are neither used nor told by a used one."""
    seen = set(public) & used
    told = set(seen)
    while told:
        told = set().union(*(public[name] for name in told)) & set(public) - seen
        seen |= told
    return [name for name in public if name not in seen]


def unused_code(text, others):
    """The public functions, types and constants of a source that no other source names; a type may also stand in a public function's heading."""
    headings = words(re.findall(r"pub fn [^{;]*", text))
    names = re.findall(r"^\s*pub (fn|struct|enum|const) (\w+)", text, re.M)
    return [name for kind, name in names if name not in others and (kind == "fn" or name not in headings)]


def mentioned(name, lines):
    """Whether another declaration of the file mentions the name; its own clauses stand at its own indentation."""
    own = re.compile(rf"^( *){MARKS}*{re.escape(name)}(?![^\s(:{{<])")
    indents = {len(found.group(1)) for line in lines if "pub " in line and (found := own.match(line))}
    return any(name in SPLIT.split(line) for line in lines if not ((found := own.match(line)) and len(found.group(1)) in indents))


def unused_in(path, lines, used, sources):
    where = str(path.relative_to(CRATES))
    if path.name in ("Answers.antt", "Invariants.antt") or any(where == kept or where.startswith(kept + "/") for kept in KEPT):
        return []
    if path.suffix == ".rt":
        declared = {module.split(".")[2] for _, module in used if module.startswith("specs.declared.")}
        names = unused_code("\n".join(lines[path]), declared.union(*(sources[p] for p in sources if p != path)))
    else:
        crate, *parts = path.relative_to(CRATES).with_suffix("").parts
        kept = {name.split(":")[1] for name in KEPT if name.startswith(where + ":")}
        names = unused_specs(declarations(lines[path]), used.get((crate, ".".join(parts)), set()) | kept)
    return [(where, name) for name in names]


def idle_in(path, lines):
    """The names that a file of definitions or proofs brings in and does not use; of an operator, each part counts as its use."""
    if path.suffix == ".rt":
        return []
    uses = [found for line in lines if (found := USE.search(line.strip())) and "pub " not in line]
    here = set(re.split(r"[\s(){},.;@«»]+", "\n".join(line for line in lines if not USE.search(line.strip()))))
    names = [name.split(" as ")[-1].strip(" «»") for found in uses if found.group(2) for name in found.group(2).split(",")]
    return [(str(path.relative_to(CRATES)), name) for name in names if name not in here and not set(filter(None, name.split("◌"))) <= here]


def main():
    chosen = set(sys.argv[1:])
    lines = {path: code_of(path) for path in sorted(CRATES.rglob("*")) if path.suffix in (".antt", ".rt") and "out" not in path.parts}
    used = all_brought(lines)
    sources = {path: words(lines[path]) for path in lines if path.suffix == ".rt"}
    files = [path for path in lines if not chosen or path.relative_to(CRATES).parts[0] in chosen]
    unused = [found for path in files for found in unused_in(path, lines, used, sources)]
    for where, name in unused:
        print(f"{where}: {name}: {'needs no pub' if mentioned(name, lines[CRATES / where]) else 'nobody uses it'}")
    idle = [found for path in files for found in idle_in(path, lines[path])]
    for where, name in idle:
        print(f"{where}: {name}: brought in for nothing")
    print(f"{len(unused)} public names without a user, {len(idle)} names brought in for nothing")
    sys.exit(1 if unused or idle else 0)


main()
