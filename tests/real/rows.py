#!/usr/bin/env python3
"""Small stores and what c2 must say of each, computed by store.py.

    rows.py write [TABLE..]    writes the tables of crates/c2_test_rows that are computed, or those that are named: `show`, `questions`
                               without verdict files, `validate` with a judge who approves every question, `films` under
                               `validate`, `manifests`, `pairs` under `compare`, `builds` and `build_refusals` under `plan` and
                               `embed`, and those of collect_tables.py, fault_tables.py, front_tables.py,
                               large_tables.py and sidecar_tables.py
    rows.py check              fails where one of them isn't the one that would be written
    rows.py files DIRECTORY    writes a JPEG around each of these stores and of those of rule_rows.py, and the verdicts on the latter
"""

import hashlib
import os
import sys

import build_tables
import collect_tables
import compare_rows
import fault_tables
import film_rows
import front_tables
import large_tables
import question_rows
import rule_rows
import show_rows
import sidecar_tables
import tables
import validate_rows
from drafts import Jpeg
from make_store import jpeg, manifest, store
from store import report
from tables import Approving, folded

ROWS = {"show": show_rows.rows, "questions": question_rows.rows, "validate": validate_rows.rows}


def table(command):
    """The table of a command over small stores."""
    given = {"words": f"{command} P", "packets": "63984 50", "pieces": "1 7 65536"}
    if command == "validate":
        given |= {"words": "validate P V", "packets": "63984", "judges": "approved"}
    text = tables.head(f"What `{command}` says of small stores.", "rows.py", **given)
    for what, contents in ROWS[command]():
        judge = Approving()
        line, status = report(command, jpeg(contents), [judge] if command == "validate" else [])
        text += tables.row(what, folded(contents), status, line, judge.asked if command == "validate" else None)
    return text + (validate_rows.more() if command == "validate" else "")


def films():
    """The table of films: what `validate` must say is written by hand, and store.py must come to it."""
    text = tables.head("What `validate` says of small films.", "rows.py", words="validate P V", pieces="1 7 65536", judges="approved")
    for what, known, film in film_rows.rows():
        judge = Approving()
        line, status = report("validate", film, [judge])
        assert line == known, (what, line)
        text += tables.row(what, folded(film), status, line, judge.asked)
    film = film_rows.signed_film()
    line, status = report("digest", film)
    assert line == f"25 1220 {hashlib.sha256(film[:25]).hexdigest()}", line
    return text + tables.settings(words="digest P", judges="") + tables.row("a digest leaves out the whole box of a store", film.hex(), status, line)


def manifests():
    """The table of stores with as many manifests as a store may have, and with one more."""
    text = tables.head("Stores of many manifests.", "rows.py", words="show P", packets="10000", pieces="1 7 65536", room="100000")
    empty = [manifest(str(number)) for number in range(1_025)]
    line, status = report("show", jpeg(store(*empty[:1_024])))
    shown = (f'{{"boxes":[],"claim":null,"label":"{number}","update":false}}' for number in range(1_024))
    assert line == f'{{"active":"1023","manifests":[{",".join(shown)}]}}', line
    text += tables.row("at most 1,024 manifests are shown", store(*empty[:1_024]).hex(), status, line)
    for command in "show", "questions":
        line, status = report(command, jpeg(store(*empty)))
        assert (line, status) == ("refused TooMany 1025", 2), line
        text += tables.settings(words=f"{command} P")
        text += tables.row(f"1,025 are refused by {command}", store(*empty).hex() if command == "show" else ".", status, line)
    return text


TABLES = {
    "show": lambda: table("show"),
    "questions": lambda: table("questions"),
    "validate": lambda: table("validate"),
    "films": films,
    "manifests": manifests,
    "pairs": compare_rows.table,
    "builds": build_tables.builds,
    "build_refusals": build_tables.refusals,
    "faults": fault_tables.faults,
    "judge_faults": fault_tables.judge_faults,
    "jpeg_prefixes": fault_tables.jpeg_prefixes,
    "film_prefixes": fault_tables.film_prefixes,
    "changed_bytes": fault_tables.changed_bytes,
    "large": large_tables.large,
    "sidecars": sidecar_tables.sidecars,
    "fronts": front_tables.fronts,
    "collects": collect_tables.collects,
}


def write_files(directory):
    for command in "show", "questions":
        for number, (_, contents) in enumerate(ROWS[command](), 1):
            write_file(directory, f"row-{command}-{number:03}.jpg", jpeg(contents))
    verdicts = {}
    for number, (_, _, drafts) in enumerate(rule_rows.rows(), 1):
        contents = Jpeg().file(drafts)
        write_file(directory, f"row-rule-{number:03}.jpg", contents)
        verdicts |= rule_rows.verdicts_on(contents)
    rows = "".join(f"{identity} {word}\n" for identity, word in verdicts.items())
    write_file(directory, "rules.verdicts", rows.encode())


def write_file(directory, name, contents):
    with open(os.path.join(directory, name), "wb") as file:
        file.write(contents)


def main():
    command, *more = sys.argv[1:]
    if command == "files":
        write_files(*more)
    elif command == "write":
        for name in more or TABLES:
            tables.write(name, TABLES[name]())
    elif command == "check":
        wrong = [name for name in TABLES if not tables.is_written(name, TABLES[name]())]
        for name in wrong:
            print(f"{name}.rows isn't what rows.py writes")
        return 1 if wrong else 0
    else:
        raise SystemExit(__doc__)
    return 0


if __name__ == "__main__":
    sys.exit(main())
