"""How pages are laid out, for tools/check-docs and tools/edits: lines under 110 characters, no paragraph over ten
lines. A table's row that is too long goes on in the rows below it, whose cells hold the rest."""
import itertools
import re

WIDTH, PARAGRAPH = 110, 10


def filled(words: list[str], width: int) -> list[str]:
    lines = [words[0]] if words else [""]
    for word in words[1:]:
        if len(lines[-1]) + 1 + len(word) <= width:
            lines[-1] += " " + word
        else:
            lines.append(word)
    return lines


def narrowest(words: list[str], count: int) -> list[str]:
    """At most so many lines, as narrow as they can be."""
    width = max(map(len, words), default=0)
    while len(filled(words, width)) > count:
        width += 1
    return filled(words, width)


def row(line: str) -> list[str]:
    """The row itself, or the rows that it becomes; code between backquotes is not parted."""
    if len(line) < WIDTH:
        return [line]
    indent = line[: len(line) - len(line.lstrip())]
    cells = [re.findall(r"(?:`[^`]*`|[^\s`])+", cell) for cell in re.split(r"(?<!\\)\|", line.strip()[1:-1])]
    for count in range(2, max(map(len, cells)) + 1):
        columns = [narrowest(cell, count) for cell in cells]
        spare = WIDTH - 2 - len(indent) - sum(max(map(len, column)) + 3 for column in columns)
        if spare < 0:
            continue
        for i in sorted(range(len(cells)), key=lambda i: len(" ".join(cells[i]))):  # what fits whole stays whole
            more = len(" ".join(cells[i])) - max(map(len, columns[i]))
            if more <= spare:
                spare -= more
                columns[i] = [" ".join(cells[i])]
        rows = itertools.zip_longest(*columns, fillvalue="")
        return [indent + "|" + "|".join(f" {part} " if part else " " for part in parts) + "|" for parts in rows]
    return [line]


def laid(lines: list[str]) -> list[str]:
    """A page's lines with every long row of a table parted."""
    made, fenced = [], False
    for line in lines:
        fenced ^= line.startswith("```")
        made += row(line) if line.lstrip().startswith("|") and not fenced else [line]
    return made


def faults(lines: list[str]) -> list[str]:
    found, length, fenced = [], 0, False
    for number, line in enumerate(lines):
        fenced ^= line.startswith("```")
        if len(line) >= WIDTH:
            found.append(f"line {number + 1}: {len(line)} characters")
        prose = line and not fenced and not re.match(r"[|#`]|- |\d+\. |    ", line)
        length = length + 1 if prose else 0
        if length > PARAGRAPH:
            found.append(f"line {number + 1}: a paragraph of over {PARAGRAPH} lines")
    return found
