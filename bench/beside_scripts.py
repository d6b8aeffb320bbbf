"""The parts of hostile.py that try what stands beside scripts: files of comma-separated values, guards, orders, code files."""

import re

import code_file
import code_meaning
import commands
import meaning
import reader
import rules as rules_of
import script as scripts
import tables
from common import Wrong, call, has_command
from drawers import CodeFiles, Files, Orders, Rules
from inputs import examples
from typed_phrases import RELATIONS, TypedPhrases

MAGICS = [*reader.PAGES]


def put_database(folder, draw, catalogue, state):
    """Files that hold this state, in either format, on either side, and what they are."""
    half = tables.half_of(draw.choice(MAGICS), catalogue, state)
    side = draw.choice([b"\0", b"\1", b"\7"])
    files = [side, b"", half] if side == b"\1" else [side, half, b""]
    folder.put(*files)
    return files


def holds(files, catalogue, state):
    """Whether the files hold this database."""
    try:
        return len(files[0]) == 1 and tables.state_of(*files) == (catalogue, state)
    except reader.Damaged:
        return False


def answered(program, words, what):
    text, complaint, status = call(program, words)
    if complaint:
        raise Wrong(f"{what}: it wrote {complaint[:200]!r} to standard error")
    return text, status


# ---- files of comma-separated values


def wanted_import(catalogue, state, name, data):
    """What an import prints, its status, and the state behind it."""
    if len(data) > tables.LONGEST_FILE:
        return b"refused TooLong at %d\n" % tables.LONGEST_FILE, 3, state
    numbers = [number for number, (relation, _) in enumerate(catalogue) if relation == name]
    if not numbers:
        return b"no relation\n", 5, state
    attributes = catalogue[numbers[0]][1]
    rows, bad = tables.read_file([it for it, _ in attributes], [kind for _, kind in attributes], data)
    if rows is None:
        return b"refused Record at %d\n" % bad, 3, state
    after = [rows | old if number == numbers[0] else old for number, old in enumerate(state)]
    return b"imported %d\n" % len(rows), 0, after


def try_csv(program, folder, draw, number, processes):
    """Imports into databases of either format, and an export behind some."""
    files = Files(draw)
    if number == 0:
        yield try_import(program, folder, draw, files, b"a\n" + b"1" * tables.LONGEST_FILE)
    while True:
        yield try_import(program, folder, draw, files, None)


def try_import(program, folder, draw, files, data):
    catalogue = files.catalogue()
    state = files.state(catalogue)
    before = put_database(folder, draw, catalogue, state)
    name, attributes = draw.choice(catalogue)
    if data is None:
        data = files.file(attributes)
    if draw.random() < 0.05:
        name = draw.choice([b"Q", b"", b"2nd", name.lower()])
    folder.write("script", data)
    what = f"import into {name!r} of {catalogue} {state} of the file {data[:5000]!r}"
    text, status = answered(program, ["import", folder.database, name, folder.script], what)
    wanted_text, wanted_status, after = wanted_import(catalogue, state, name, data)
    if (text, status) != (wanted_text, wanted_status):
        raise Wrong(f"{what}: {text!r} {status}, wanted {wanted_text!r} {wanted_status}")
    found = folder.read()
    if not holds(found, catalogue, after) or (status and found != before):
        raise Wrong(f"{what}: it left {[it[:2000].hex() for it in found]}")
    if draw.random() < 0.3:
        return 1 + try_export(program, folder, draw, catalogue, after)
    return 1


def try_export(program, folder, draw, catalogue, state):
    before = folder.read()
    place = draw.randrange(len(catalogue) + 1)
    if place == len(catalogue):
        name, wanted = b"Q", (b"no relation\n", 5)
    else:
        name, attributes = catalogue[place]
        text = tables.file_of([it for it, _ in attributes], [kind for _, kind in attributes], state[place])
        wanted = text, 0
    what = f"export of {name!r} of {catalogue} {state}"
    found = answered(program, ["export", folder.database, name], what)
    if found != wanted:
        raise Wrong(f"{what}: {found}, wanted {wanted}")
    if folder.read() != before:
        raise Wrong(f"{what}: it changed a file")
    return 1


# ---- chains of commands


DECLARED = [
    b"relation R(a int); relation S(a int, b text); relation T(b text, on bool, a int); ",
    b"relation T(b text, on bool, a int); relation R(a int); relation U(k text); relation S(a int, b text); ",
    b"relation R(a int, c bool); relation S(a int, b text); relation T(b text, on bool, a int); ",
    b"relation R(a int); ",
]


def draw_command(draw, files, phrases):
    """The words of a command, with D for the folder and F for its file, and what the file has."""
    command = draw.choice(["init", "run", "run", "run", "run", "import", "import", "export", "checkpoint", "widen", "dump"])
    if command == "init":
        return ["init", "D", "F"], draw.choice([DECLARED[0], phrases.script()])
    if command == "run":
        return ["run", "D", draw.choice(["0", "7", "300"]), "F"], phrases.script()
    if command == "widen":
        return ["widen", "D", "F"], draw.choice([DECLARED[0], *DECLARED])
    if command == "import":
        name, attributes = draw.choice(RELATIONS)
        attributes = [(attribute.encode(), tables.KIND_OF[kind]) for attribute, kind in attributes]
        return ["import", "D", name, "F"], files.file(attributes)
    return ([command, "D", draw.choice("RSTU")] if command == "export" else [command, "D"]), b""


def try_folders(program, folder, draw, number, processes):
    """Commands one after the other on one folder: what each prints, and each byte of the files behind it."""
    files, phrases = Files(draw), TypedPhrases(draw)
    while True:
        start = [b"", b"", b""]
        if draw.random() < 0.5:
            catalogue = commands.catalogue_of(scripts.read(DECLARED[0]))
            start = put_database(folder, draw, catalogue, files.state(catalogue))
        folder.put(*start)
        model, story = commands.Folder(start), []
        for _ in range(draw.randrange(2, 9)):
            words, source = draw_command(draw, files, phrases)
            if words[0] in ("import", "export") and not has_command(program, "import"):
                continue
            folder.write("script", source)
            places = {"D": folder.database, "F": folder.script}
            story.append((words, source[:3000]))
            found = answered(program, [places.get(word, word) for word in words], f"{story} from {start}")
            wanted = model.call(words, source)
            if found != wanted or folder.read() != model.files:
                raise Wrong(f"{story} from {start}: {found} {folder.read()}, wanted {wanted} {model.files}")
            yield 1


# ---- guards


def wanted_guard(rules, script, catalogue, state, turns):
    """What a guarded run prints, its status, the state behind it, and whether a half of format 1 was rewritten."""
    try:
        lines = tables.lines_of(rules)
        tree = scripts.read(script)
        rules_of.Checker(tree).check()
        missing = tables.missing(tree, catalogue)
        if missing:
            return b"differs %s\n" % missing, 5, state, False
        guards = tables.guards_of(lines, catalogue)
    except scripts.Refused as refused:
        return b"refused %s at %d\n" % (refused.name.encode(), refused.at), 3, state, False
    machine = tables.StoredMachine(tree, turns, catalogue, state, guards)
    return (*machine.run_over(), True)


def try_rules(program, folder, draw, number, processes):
    """Guarded runs, and what they leave."""
    rules = Rules(draw)
    while True:
        state, lines, script = rules.state(rules.CATALOGUE), rules.rules(), rules.script()
        before = put_database(folder, draw, rules.CATALOGUE, state)
        folder.write("rules", lines)
        folder.write("script", script)
        turns = draw.choice(["0", "7", "1000"])
        what = f"guard {turns} of {state} by {lines!r} and {script!r}"
        words = ["guard", folder.database, turns, folder.path + "/rules", folder.script]
        text, status = answered(program, words, what)
        wanted_text, wanted_status, after, runs = wanted_guard(lines, script, rules.CATALOGUE, state, int(turns))
        if (text, status) != (wanted_text, wanted_status):
            raise Wrong(f"{what}: {text!r} {status}, wanted {wanted_text!r} {wanted_status}")
        found = folder.read()
        if not holds(found, rules.CATALOGUE, after) or (not runs and found != before):
            raise Wrong(f"{what}: it left {[it[:2000].hex() for it in found]}")
        yield 1


# ---- woven sessions


def sessions_in(text, many):
    """What each session printed, in the order in which they closed."""
    parts = re.split(rb"^session (\d+)\n", text, flags=re.M)
    closed = [(int(number), part) for number, part in zip(parts[1::2], parts[2::2])]
    if parts[0] or sorted(number for number, _ in closed) != list(range(many)):
        raise Wrong(f"its sessions are {[number for number, _ in closed]} of {many}")
    return closed


def run_over(state, catalogue, script, turns):
    """What a run over this state prints, and the state that it stores."""
    machine = tables.StoredMachine(scripts.read(script), turns, catalogue, state)
    text, _, after = machine.run_over()
    return text, after


def judge_weave(text, files, catalogue, states, turns):
    """Those that commit are as runs one after another; those that don't, as a run over a state between. The last state."""
    for session, part in sessions_in(text, len(files)):
        conflict = re.fullmatch(rb"conflict with commit (\d+)\n", part)
        if conflict:
            if not 1 <= int(conflict[1]) < len(states):
                raise Wrong(f"session {session} has a conflict with a commit that is none: {part!r}")
            continue
        printed, after = run_over(states[-1], catalogue, files[session], turns)
        if b"commit " in part:
            if printed != part:
                raise Wrong(f"session {session} printed {part!r}, and alone in its turn {printed!r}")
            states.append(after)
        elif not any(run_over(state, catalogue, files[session], turns)[0] == part for state in states):
            raise Wrong(f"session {session} printed {part!r}, which it prints over no state between")
    return states[-1]


def try_orders(program, folder, draw, number, processes):
    """Sessions woven in some order, over a small database."""
    orders = Orders(draw)
    catalogue = [(b"R", [(b"a", tables.INT)]), (b"S", [(b"a", tables.INT)])]
    while True:
        state = [{(draw.randrange(4),) for _ in range(draw.randrange(3))} for _ in catalogue]
        before = put_database(folder, draw, catalogue, state)
        order, files, turns = orders.order(), orders.scripts(), draw.choice(["0", "3", "200"])
        names = []
        for place, file in enumerate(files):
            folder.write(f"f{place}", file)
            names.append(f"{folder.path}/f{place}")
        what = f"weave {turns} {order!r} of {state} by {files}"
        text, status = answered(program, ["weave", folder.database, turns, order, *names], what)
        good = re.fullmatch(r"[0-9]{1,20}", order) and int(order) < 2**64 and len(files) <= 64
        found = folder.read()
        if not good:
            if (text, status) != (b"usage\n", 2) or found != before:
                raise Wrong(f"{what}: {text!r} {status}")
        elif status != 0:
            raise Wrong(f"{what}: {text!r} {status}")
        else:
            try:
                after = judge_weave(text, files, catalogue, [state], int(turns))
            except Wrong as wrong:
                raise Wrong(f"{what}: {text!r}: {wrong}")
            if not holds(found, catalogue, after):
                raise Wrong(f"{what}: {text!r}: it left {[it[:2000].hex() for it in found]}")
        yield 1


# ---- code files


def wrong_in_packed(script, data, turns):
    """What is wrong with what `pack` wrote of a script that is accepted, or None: it is code that may be run, and that does
    what the script does."""
    found, wanted = code_meaning.execute(data, turns), meaning.evaluate(script, turns)[:2]
    return None if found == wanted else f"the file {data.hex()} does {found}, wanted {wanted}"


def packed_scripts(program, folder):
    """Packed scripts, each of which does what the script does."""
    packed = [code_file.EXAMPLE]
    wholes = [Rules.DECLARED + script for script in Rules.SCRIPTS] + [Orders.DECLARED + script for script in Orders.SCRIPTS]
    for whole in [whole.encode() for whole in wholes] + examples():
        folder.write("script", whole)
        text, status = answered(program, ["pack", folder.script], f"pack of {whole!r}")
        if status == 0:
            packed.append(text)
            wrong = wrong_in_packed(whole, text, 500)
            if wrong:
                raise Wrong(f"pack of {whole!r}: {wrong}")
    return packed


def try_code(program, folder, draw, number, processes):
    """Spoiled code files: each is bad at its place, rejected at its address, or does what its instructions tell."""
    files = CodeFiles(draw, packed_scripts(program, folder))
    while True:
        data = files.one()
        folder.write("code", data)
        found = answered(program, ["exec", "300", folder.path + "/code"], f"exec of {data.hex()}")
        wanted = code_meaning.execute(data, 300)
        if found != wanted:
            raise Wrong(f"exec of {data.hex()}: {found}, wanted {wanted}")
        yield 1


PARTS = {"folders": try_folders, "csv": try_csv, "rules": try_rules, "orders": try_orders, "code": try_code}
