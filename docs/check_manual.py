#!/usr/bin/env python3
"""Checks that the manual page and README.md have the numbers of the program's exit statuses.

Usage: docs/check_manual.py, from the top of the repository.
"""
import re
import sys


def read(path):
    with open(path, encoding="utf-8") as file:
        return file.read()


def program_statuses():
    """Returns the numbers that `Status::number` answers."""
    source = read("crates/log_commands/src/status.rt")
    body = source[source.index("pub fn number") :]
    body = body[: body.index("\n    }\n")]
    return {int(number) for number in re.findall(r"=> (\d+),", body)}


def manual_statuses():
    """Returns the rows of the manual page's table, by number."""
    page = read("docs/graph.1")
    part = page[page.index(".SH EXIT STATUS") :]
    rows = part[part.index(".TS") : part.index(".TE")].splitlines()[2:]
    return {int(number): text.replace("\\-", "-") for number, text in (row.split("\t") for row in rows)}


def readme_statuses():
    """Returns the rows of README's table of statuses, by number. A row of several statuses has one text for each."""
    table = {}
    for numbers, text in re.findall(r"^\| ([0-9, ]+) \| (.*) \|$", read("README.md"), re.M):
        table.update({int(number): text.replace("`", "") for number in numbers.split(",")})
    return table


def main():
    program, manual, readme = program_statuses(), manual_statuses(), readme_statuses()
    if not program == set(manual) == set(readme):
        sys.exit(f"statuses: program {sorted(program)}, manual {sorted(manual)}, README {sorted(readme)}")
    print(f"the manual page has the {len(manual)} statuses of the program")


main()
