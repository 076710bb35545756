#!/usr/bin/env python3
"""Tries changed bodies, and says of which the prover takes.

    tests/edits.py must-fail [CRATE..]    wrong bodies that the gate tries beside those of crates/*/must-fail, which
                                          `rt ci` tries itself: each has to be refused
    tests/edits.py edits [CRATE..]        more of these
    tests/edits.py neutral [CRATE..]      changes that mean nothing: all but a few have to be proved

Each stands in a file tests/KIND/CRATE/NAME.edit, with lines `check: MODULE::FUNCTION` for the functions that it
changes, then `file: PATH`, and pairs of lines `old: TEXT` and `new: TEXT`; each old text stands in that file once.

A function is checked alone, over the libraries that were built below its crate. The functions of its crate that it
calls are taken at their contracts: their bodies are cut out, with a hole for a proof. An edit is made in a copy of the
function beside it, so that those of a crate go into one check, with the functions as they stand: were one refused for
what was cut, its edits would show nothing. Where a function cannot be copied, as it is one of a trait's, or calls
itself, its edit is made in place: those of different functions in one check, and once more alone where what one calls
was changed too. JOBS=N checks so many side by side; LOGS=FOLDER keeps what the prover says.
"""
import os
import re
import shutil
import subprocess
import sys
import tempfile
from concurrent.futures import ThreadPoolExecutor
from dataclasses import dataclass, replace
from itertools import accumulate
from pathlib import Path

ROOT = Path(__file__).resolve().parent.parent
# So many changes that mean nothing may be refused.
MOST_REFUSED = 4
# How a line begins that declares a function, a type, or methods of one.
FUNCTION = re.compile(r'( *)(?:pub(?:\(\w+\))? )?(?:unsafe )?(?:extern "C" )?fn (\w+)')
TYPE = re.compile(r"^(?:pub(?:\(\w+\))? )?(?:struct|enum) (\w+)", re.M)
BLOCK = re.compile(r"(?:pub )?(impl|trait)\b(.*)")
HOLE = """use Rattle.{crate}.proofs.{path}.Statement.{{statement}}

pub {name}_spec : {{M : Type 1}} → statement M
{name}_spec 𝓤 𝓛 𝓜 𝓡 w = ?
"""
# What the prover says of a proof that names what an edit took away.
NAMES = re.compile(r"has no field|is not in scope|has no `|was not admitted")


@dataclass
class Edit:
    name: str
    checks: list[str]
    # The file, the old text and the new one.
    changes: list[tuple[str, str, str]]


@dataclass
class Body:
    """A function's body: its path, as a check prints it, its file, the first line of the function's comment, the body's
    first line, and the one behind its last. `is_alone`: it is none of a trait's, and does not call itself."""

    path: str
    file: Path
    head: int
    begin: int
    end: int
    is_alone: bool


def read_edit(file):
    checks, changes, path, old = [], [], None, None
    for line in file.read_text(encoding="utf-8").split("\n"):
        key, _, text = line.partition(": ")
        if key == "check":
            checks.append(text)
        elif key == "file":
            path = text
        elif key == "old":
            old = text
        elif line.startswith("new:"):
            changes.append((path, old, line[len("new: ") :]))
    return Edit(file.stem, checks, changes)


def words(text):
    """The names in a type: its own, and those of what it is given, but not of what these are given."""
    while re.search(r"<[^<>]*<[^<>]*>", text):
        text = re.sub(r"(<[^<>]*)<[^<>]*>", r"\1", text)
    return [it for it in re.findall(r"(?:\w+::)*('?\w+)", text) if not it.startswith("'")]


def owner(line, module, homes):
    """The path of the type or trait whose methods the block holds, or None if it goes by another name."""
    kind, head = BLOCK.match(line).groups()
    head = head.split(" where ")[0].rstrip("{ ")
    if kind == "trait":
        return [*module, words(head)[0]]
    while head.startswith("<"):
        depth = list(accumulate((it == "<") - (it == ">") for it in head))
        head = head[depth.index(0) + 1 :]
    trait, _, of = head.strip().rpartition(" for ")
    name, *given = words(of)
    home = homes.get(name)
    if of.startswith("&") or home is None or trait and home != module:
        return None
    if trait:
        return [*home, name + "".join(words(trait) if trait != "Drop" else "")]
    # A letter is a parameter of the block's own.
    return [*home, "+".join([name, *given]) if any(len(it) > 1 for it in given) else name]


def begin_of(lines, at, indent):
    """The line that opens the body of the function of this line, or None if it has none, or an empty one."""
    for begin in range(at, lines.index("", at)):
        if lines[begin] == indent + "{" or re.match(rf"{indent}\S.* {{$", lines[begin]):
            return begin
    return None


def is_on_cycle(lines, at):
    """Whether the function of this line calls itself through others."""
    while at and re.match(r" *(#\[|//)", lines[at - 1]):
        at -= 1
        if "cycle(" in lines[at]:
            return True
    return False


def head_of(lines, at):
    """The first line of the comment and the attributes of the function of this line."""
    while at and lines[at - 1] and (lines[at - 1].lstrip().startswith("//") or not lines[at - 1].endswith("{")):
        at -= 1
    return at


def bodies(file, module, homes):
    """The bodies of the functions of a file that `rt fmt` laid out, but for those on a cycle of calls."""
    lines, found, block, is_trait, at = file.read_text(encoding="utf-8").split("\n"), [], None, False, 0
    while at < len(lines):
        function = FUNCTION.match(lines[at])
        if BLOCK.match(lines[at]):
            block = owner(lines[at], module, homes)
            is_trait = BLOCK.match(lines[at])[1] == "trait" or " for " in lines[at]
        begin = function and begin_of(lines, at, function[1])
        if begin is not None:
            indent, name = function.groups()
            path, end = block if indent else module, lines.index(indent + "}", begin)
            if path is not None and not is_on_cycle(lines, at):
                calls_itself = re.search(rf"\b{name}\(", "\n".join(lines[begin + 1 : end]))
                is_alone = not (indent and is_trait) and not calls_itself
                found.append(Body("::".join([*path, name]), file, head_of(lines, at), begin + 1, end, is_alone))
            at = end
        at += 1
    return found


def modules(folder):
    """The source files of the crate in the folder, with the paths of their modules; its types, with those of theirs."""
    files, homes = {}, {}
    for file in (folder / "src").rglob("*.rt"):
        parts = file.relative_to(folder / "src").with_suffix("").parts
        files[file] = [it for it in parts if it not in ("lib", "main", "mod")]
        for name in TYPE.findall(file.read_text(encoding="utf-8")):
            homes[name] = files[file]
    return files, homes


def functions_in(folder):
    """The bodies of the functions of the crate in the folder."""
    files, homes = modules(folder)
    return [body for file, module in files.items() for body in bodies(file, module, homes)]


def cut(folder, crate, kept):
    """Cuts out the bodies of the crate in the folder but for those that are kept, and gives each a hole for a proof."""
    for body in reversed(functions_in(folder)):
        if body.path in kept:
            continue
        lines = body.file.read_text(encoding="utf-8").split("\n")
        lines[body.begin : body.end] = ["unreachable!()"]
        body.file.write_text("\n".join(lines), encoding="utf-8")
        parts = body.path.split("::")
        proof = folder.joinpath("proofs", *parts)
        shutil.rmtree(proof, ignore_errors=True)
        proof.mkdir(parents=True)
        hole = HOLE.format(crate=crate, path=".".join(parts), name=parts[-1])
        (proof / "Proof.antt").write_text(hole, encoding="utf-8")


def change(folder, edit):
    """Makes the changes of an edit, and answers a text that does not stand once in what is left, or None."""
    for path, old, new in edit.changes:
        text = (folder / path).read_text(encoding="utf-8")
        if text.count(old) != 1:
            return old
        (folder / path).write_text(text.replace(old, new), encoding="utf-8")
    return None


def text_of(body):
    """A function's text, with its comment and its contract."""
    lines = body.file.read_text(encoding="utf-8").split("\n")
    return "\n".join(lines[body.head : body.end + 1])


def copies(folder, edit):
    """The functions that an edit changes, each with its text before and after it, or None if there can be no copies."""
    found = {it.path: it for it in functions_in(folder) if it.path in edit.checks and it.is_alone}
    if len(found) < len(edit.checks):
        return None
    texts = {path: text_of(it) for path, it in found.items()}
    for file, old, new in edit.changes:
        homes = [path for path, it in found.items() if it.file == folder / file and texts[path].count(old) == 1]
        if len(homes) != 1:
            return None
        texts[homes[0]] = texts[homes[0]].replace(old, new)
    return [(it, text_of(it), texts[path]) for path, it in found.items()]


def copied(folder, edit, name):
    """Puts copies of the functions that an edit changes beside them, with its changes, their names with this behind
    them, and copies of what their proofs answer."""
    for body, before, after in copies(folder, edit):
        *parts, last = body.path.split("::")
        path = ".".join([*parts, last])
        after = re.sub(rf"\bfn {last}\b", f"fn {last}{name}", after, count=1)
        whole = body.file.read_text(encoding="utf-8")
        body.file.write_text(whole.replace(before, f"{before}\n\n{after}"), encoding="utf-8")
        proof = folder.joinpath("proofs", *parts)
        if (proof / last).is_dir():
            shutil.copytree(proof / last, proof / f"{last}{name}")
        for file in (proof / f"{last}{name}").rglob("*.antt"):
            answers = file.read_text(encoding="utf-8")
            answers = re.sub(rf"\b{re.escape(path)}\.", f"{path}{name}.", answers)
            file.write_text(re.sub(rf"\b{last}_spec\b", f"{last}{name}_spec", answers), encoding="utf-8")
    return replace(edit, checks=[it + name for it in edit.checks])


def furnish(room, crate):
    """A repository with one crate, over the libraries of the others."""
    shutil.copy(ROOT / "crates.txt", room)
    shutil.copytree(ROOT / "tools", room / "tools")
    for other in (ROOT / "crates").iterdir():
        here = room / "crates" / other.name
        here.mkdir(parents=True)
        if other.name == crate:
            for part in ("src", "specs", "proofs"):
                if (other / part).is_dir():
                    shutil.copytree(other / part, here / part)
        elif (other / "out").is_dir():
            (here / "out").symlink_to(other / "out")


def check(crate, alone, stand, edits):
    """Has copies of functions checked for the edits `alone`, and the functions `stand` after the other edits: answers
    the first with the names of the copies, what is said of each function, and all that is said."""
    with tempfile.TemporaryDirectory() as room:
        furnish(Path(room), crate)
        folder = Path(room, "crates", crate)
        alone = [copied(folder, it, f"_edit{k}") for k, it in enumerate(alone)]
        checks = [*stand, *functions(alone)]
        cut(folder, crate, checks)
        for edit in edits:
            lost = change(folder, edit)
            if lost:
                return alone, {}, f"error: {edit.name}: this does not stand once in the functions that it names: {lost}"
        command = ["sh", "tools/rattle.sh", crate, "check", "--allow-holes"]
        for it in checks:
            command += ["--only", it]
        ran = subprocess.run(command, cwd=room, stdin=subprocess.DEVNULL, capture_output=True, text=True)
    log = ran.stdout + ran.stderr
    if "LOGS" in os.environ:
        name = ".".join([crate, *(it.name for it in [*alone, *edits][:1]), "log"])
        Path(os.environ["LOGS"], name).write_text(log, encoding="utf-8")
    return alone, dict(re.findall(rf"^fn {crate}::(\S+): (.*)", log, re.M)), log


def refusal(path, said):
    """The goals at which a function is refused, apart from what it calls, or None where it is not."""
    goals = re.search(r"`search` did not prove (.*?)(?:; it calls|$)", said[path])
    if goals:
        return goals[1]
    stands = re.search(r"^not proved; it stands on (.*?), which antt refuses", said[path])
    others = tuple(f".{it.replace('::', '.')}." for it in said if it != path)
    told = [it for it in stands[1].split(", ") if not any(other in it for other in others)] if stands else []
    return ", ".join(told) or None


def is_proved(path, said):
    """Whether all that is left of a function's proof are the holes in place of others' proofs."""
    holes = said[path].removeprefix("depends on a hole in ")
    if holes == said[path]:
        return holes == "no holes"
    same = re.search(r"(, and in )?the same \d+ declarations as `\w+::(.*)`$", holes)
    named = holes[: same.start()] if same else holes
    is_cut = all(re.fullmatch(r"`\S+\.Proof\.\w+_spec`", it) for it in named.split(", ") if it)
    return is_cut and (not same or is_proved(same[2], said))


def is_by_name(path, said, log):
    """Whether a function is refused at no goal, but as its proof names what was taken away."""
    if not said[path].startswith("not proved"):
        return False
    told = re.findall(rf"^\./proofs/{path.replace('::', '/')}/\w+\.antt:[0-9:]* error: (.*)", log, re.M)
    return told != [] and all(NAMES.search(it) for it in told)


def rounds(edits):
    """The edits in as few lists as go, none of which has two of one function."""
    lists = []
    for edit in edits:
        fit = [it for it in lists if not any(set(edit.checks) & set(other.checks) for other in it)]
        if not fit:
            lists.append([])
        (fit or lists[-1:])[0].append(edit)
    return lists


def functions(edits):
    """The functions that are changed."""
    return sorted({path for it in edits for path in it.checks})


def tasks(kind, crate):
    """The checks of a crate: its name, the edits that are made in copies, the functions that are asked for beside them,
    and the edits that are made in these."""
    folder = ROOT / "crates" / crate
    edits = [read_edit(it) for it in sorted((ROOT / "tests" / kind / crate).glob("*.edit"))]
    alone = [it for it in edits if copies(folder, it)]
    first = (crate, alone, [] if kind == "neutral" else functions(edits), [])
    made = [(crate, [], functions(them), them) for them in rounds([it for it in edits if it not in alone])]
    return [it for it in [first, *made] if it[1] or it[2]]


def judge(kind, edit, said, log):
    """Whether what came of an edit is what is due, or None where it was not judged, and what to say of it."""
    lacking = next((it for it in edit.checks if it not in said), None)
    if lacking:
        why = re.search(r"^.*\berror.*", log, re.M)
        return None, f"NOT TRIED: nothing is said of {lacking}: {why[0] if why else log[-300:]}"
    by_name = [it for it in edit.checks if is_by_name(it, said, log)]
    goals = [refusal(it, said) for it in edit.checks if it not in by_name]
    if any(goals):
        return kind != "neutral", f"refused at {'; '.join(it for it in goals if it)}"
    if by_name:
        return False, "refused BY A NAME alone, which was taken away: this shows nothing"
    if all(is_proved(it, said) for it in edit.checks):
        return kind == "neutral", "proved" if kind == "neutral" else "NOT REFUSED"
    # What it calls is refused, so that not all of its own goals were tried.
    return None, f"NOT TRIED: {'; '.join(said[it] for it in edit.checks)}"


def outcomes(kind, crate, alone, stand, edits):
    """What came of edits that were tried together, and once more alone where that did not tell: whether it is what is
    due, and what to say; and which functions are not proved as they stand."""
    alone, said, log = check(crate, alone, stand, edits)
    lines = []
    for edit in [*alone, *edits]:
        is_due, text = judge(kind, edit, said, log)
        if is_due is None and len(edits) > 1:
            is_due, text = judge(kind, edit, *check(crate, [], edit.checks, [edit])[1:])
        lines.append((bool(is_due), f"{kind} {crate}/{edit.name}: {text}"))
    for it in [] if edits else stand:
        if it not in said or not is_proved(it, said):
            lines.append((False, f"{kind} {crate}: NOT PROVED as it stands: {it}: {said.get(it, log[-300:])}"))
    return lines


def main(kind, *crates):
    folder = ROOT / "tests" / kind
    todo = [task for crate in crates or sorted(it.name for it in folder.iterdir()) for task in tasks(kind, crate)]
    counts = {True: 0, False: 0}
    with ThreadPoolExecutor(int(os.environ.get("JOBS", "1"))) as pool:
        for lines in pool.map(lambda it: outcomes(kind, *it), todo):
            for is_due, line in lines:
                counts[is_due] += 1
                print(line, flush=True)
    print(f"{kind}: {counts[True]} {'proved' if kind == 'neutral' else 'refused'}, {counts[False]} not")
    return counts[False] > (MOST_REFUSED if kind == "neutral" else 0)


if __name__ == "__main__":
    if len(sys.argv) < 2 or sys.argv[1] not in ("must-fail", "edits", "neutral"):
        sys.exit(__doc__)
    sys.exit(main(*sys.argv[1:]))
