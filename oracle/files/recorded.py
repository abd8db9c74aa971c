"""The tables of the original that are kept as recordings, each with its limits."""
import re

from machine import answers, numbers
from reading import Reading, Record, Table


def lines_of(path):
    with open(path, encoding="latin-1", newline="") as file:
        return file.read().split("\n")


def table_of(limits, lines, prints):
    """A table from the lines that a program prints of it: of a node its fingerprint or number, then parent and code."""
    sizes, columns, at = [], ([], [], []), 0
    while at < len(lines):
        _, width, count, depth, saturated = lines[at].split(" ")
        assert int(width) == len(sizes) + 1
        sizes.append((int(count), int(depth), int(saturated)))
        nodes = [line.split(" ") for line in lines[at + 1 : at + 1 + int(count)]]
        for column, cells in zip(columns, zip(*nodes)):
            column.append([int(cell, 16 if prints and column is columns[0] else 10) for cell in cells])
        at += 1 + int(count)
    return Table(Record(*limits, sizes), columns[1], columns[2], columns[0])


def of_inspect(root):
    given, kept = lines_of(f"{root}/crates/inspect/stdin"), lines_of(f"{root}/crates/inspect/stdout")
    for line, answer in zip(given, answers(given, kept)):
        if line.startswith("table ") and answer.startswith("table "):
            limits = tuple(numbers(line.split(" ")[1:]))
            yield limits, table_of(limits, answer.split("\n"), True)


def runs(path):
    with open(path, "rb") as file:
        data = file.read()
    at = 0
    while at < len(data):
        head = re.compile(rb"run ([0-9]+)\n").match(data, at)
        at = head.end() + int(head[1])
        yield data[head.end() : at].decode("latin-1")
        at += data[at : at + 1] == b"\n"


def of_circuits(root):
    """Recorded without fingerprints: these are formed anew."""
    folder = f"{root}/crates/replay_circuits"
    for given, kept in zip(runs(f"{folder}/stdin"), runs(f"{folder}/stdout")):
        if kept.startswith("table "):
            limits = tuple(numbers(given.split("\n")[0].split(" ")))
            lines, at = kept.split("\n"), 0
            while lines[at].startswith("table "):
                at += 1 + int(lines[at].split(" ")[2])
            table = table_of(limits, lines[:at], False)
            products = Reading().all_broken(table.record, table.parents, table.codes)[1]
            yield limits, table._replace(fingerprints=[[made.fingerprint() for made in column] for column in products])
