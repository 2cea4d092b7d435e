#!/usr/bin/env python3
"""method.py PRINT WORK: holds docs/METHOD.md to the two programs and to arithmetic that shares nothing with them.

- The block that begins "pairs" is what PRINT prints for its pairs, and the block after it is their sheet, worked by WORK.
- Each answer in backquotes, `(u, y) A 92`, is what PRINT prints for that pair. The least and the greatest index that occur are among them.
- In each table that begins "| what | formula |" every formula is worked out, in 40 digits, from the names of the rows above it, and each number is
  right to its last digit. Where the formula is "Table 1" it is L or H from data/table1.txt; "the record" is p or P of WORK's record.
- Each picture of docs/pictures stands on the page.

Then it changes each digit of the two blocks, of the tables and of the answers' numbers, one at a time, and each change must be noticed.
"""
import re
import string
import struct
import subprocess
import sys
from decimal import Decimal, getcontext
from fractions import Fraction
from functools import lru_cache
from pathlib import Path

ROOT = Path(__file__).resolve().parent.parent
PAGE = ROOT / "docs/METHOD.md"
PRINT, WORK = sys.argv[1:3]
HEADER, PAIR, RESULT, MOST_PAIRS = 16, 8, 16, 2000  # sizes in bytes, and the most pairs of a sheet
Q = 2**24
getcontext().prec = 40

# ---- the programs


def sheet_of(oils):
    n = len(oils)
    pairs = b"".join(struct.pack("<II", *oil) for oil in oils)
    return struct.pack("<IIII", n, HEADER, HEADER + PAIR * n, HEADER + (PAIR + RESULT) * n) + pairs + bytes(RESULT * n)


def run(program, oils):
    return subprocess.run([program], input=sheet_of(oils), stdout=subprocess.PIPE, check=True).stdout


once = lru_cache(None)(run)


def records(oils):
    """(index, p, P) of each pair."""
    done = run(WORK, oils)
    return [struct.unpack_from("<iII", done, HEADER + PAIR * len(oils) + RESULT * i + 4) for i in range(len(oils))]


@lru_cache(None)
def record(oil):
    return records((oil,))[0]


@lru_cache(None)
def printed(oil):
    """What the line of a pair says after its two viscosities, with the minus sign and the commas of the page."""
    word, number = run(PRINT, (oil,)).decode("ascii").split("\n")[1].split()[2:]
    return f"{word} {int(number):,}".replace("-", "−")


# ---- the table and the formulas

ROWS = [tuple(map(Fraction, line.split())) for line in (ROOT / "data/table1.txt").read_text(encoding="utf-8").split("\n") if line[:1].isdigit()]


@lru_cache(None)
def by_table(name, y):
    """L or H at y thousandths, up to 70,000, in mm²/s."""
    column = {"L": 1, "H": 2}[name]
    below = max(row for row in ROWS if row[0] <= Fraction(y, 1000))
    above = min([row for row in ROWS if row[0] > Fraction(y, 1000)], default=below)
    way = (Fraction(y, 1000) - below[0]) / (above[0] - below[0]) if above != below else 0
    value = below[column] + way * (above[column] - below[column])
    return Decimal(value.numerator) / Decimal(value.denominator)


FUNCTIONS = {"log": lambda x: x.log10(), "log2": lambda x: x.ln() / Decimal(2).ln(), "floor": lambda x: x // 1}
TOKEN = re.compile(r"\s*(?:(\d[\d,]*(?:\.\d+)?)|([A-Za-z]\w*)|([-−+·/^()]))")
SIGNS = {"−": "-", "·": "*", "^": "**"}


def worked(formula, names):
    """The value of a formula: numbers, names, the signs + − · / ^ and the functions above."""
    code, at = "", 0
    formula = formula.strip()
    while at < len(formula):
        token = TOKEN.match(formula, at)
        if not token:
            raise ValueError(f"not a formula: {formula}")
        number, name, sign = token.groups()
        if number:
            code += f"D('{number.replace(',', '')}')"
        elif name:
            code += f"names[{name!r}]"
        else:
            code += SIGNS.get(sign, sign)
        at = token.end()
    return eval(code, {"__builtins__": {}, "D": Decimal, "names": {**FUNCTIONS, **names}})


def as_number(text):
    if not re.fullmatch(r"−?(\d+|\d{1,3}(,\d{3})+)(\.\d+)?", text):
        raise ValueError(f"not a number: {text}")
    return Decimal(text.replace(",", "").replace("−", "-"))


def rounded_to(value, text):
    """Is a number, as printed, the value rounded to its last digit?"""
    number = as_number(text)
    return value.quantize(Decimal(1).scaleb(number.as_tuple().exponent)) == number


# ---- the page

BLOCK = re.compile(r"^```\n(.*?)^```\n", re.S | re.M)
TABLE = re.compile(r"^\| what \| formula \|.*\n(?:\|.*\n)+", re.M)
ANSWER = re.compile(r"`\((\d+), (\d+)\) ((?:A|B~?|refused) −?[\d,]+)`")
COLUMN = re.compile(r"\((\d+), (\d+)\)")


def cells(line):
    return [cell.strip() for cell in line.strip("|").split("|")]


def complaints_of_blocks(page):
    blocks = BLOCK.findall(page)
    if len(blocks) != 2:
        yield f"{len(blocks)} blocks"
        return
    lines = blocks[0].split("\n")[1:-1]
    oils = tuple(tuple(int(field.replace(".", "")) for field in line.split()[:2]) for line in lines)
    if once(PRINT, oils).decode("ascii") != blocks[0]:
        yield "vi_print does not print the first block"
    done = once(WORK, oils)
    if blocks[1] != "".join(done[at:at + 16].hex(" ") + "\n" for at in range(0, len(done), 16)):
        yield "the second block is not the sheet that vi_work writes"


def complaint_of_cell(what, formula, cell, oil, names):
    """What is wrong with a cell, or None. A name that the row gives is put among the names, unrounded."""
    if formula == "":
        return None if what == "answer" and cell == printed(oil) else f"{oil}: {cell}"
    before, _, number = cell.rpartition(" = ")
    if formula == "Table 1":
        value = by_table(what, oil[1])
        right = value == as_number(number) and (not before or worked(before, names) == value)
    elif formula == "the record":
        value = Decimal(record(oil)[{"p": 1, "P": 2}[what]])
        right = value == as_number(number)
    else:
        value = worked(formula, names)
        right = rounded_to(value, number)
    name = what.partition(",")[0]
    if re.fullmatch(r"[A-Za-z]\w*", name):
        names[name] = value
    return None if right else f"{what} is {value:.15g}: {cell}"


def complaints_of_tables(page):
    tables = TABLE.findall(page)
    if len(tables) != 6:
        yield f"{len(tables)} tables with formulas"
    for table in tables:
        head, _, *rows = map(cells, table.rstrip("\n").split("\n"))
        for column, title in enumerate(head[2:], 2):
            found = COLUMN.fullmatch(title)
            oil = found and tuple(map(int, found.groups()))
            names = {"Q": Decimal(Q)}
            if oil:
                names.update(U=Decimal(oil[0]) / 1000, Y=Decimal(oil[1]) / 1000)
            for row in rows:
                if row[column]:
                    complaint = complaint_of_cell(row[0], row[1], row[column], oil, names)
                    if complaint:
                        yield complaint


def complaints_of_answers(page):
    answers = ANSWER.findall(page)
    if len(answers) < 7:
        yield f"{len(answers)} answers"
    for u, y, answer in answers:
        if printed((int(u), int(y))) != answer:
            yield f"({u}, {y}) is answered {printed((int(u), int(y)))}"


def complaints(page):
    """What is wrong with the page, one by one; what cannot be read is wrong as well."""
    try:
        yield from complaints_of_blocks(page)
        yield from complaints_of_tables(page)
        yield from complaints_of_answers(page)
    except (ArithmeticError, KeyError, IndexError, TypeError, ValueError, SyntaxError, struct.error) as error:
        yield f"{type(error).__name__}: {error}"


def complaints_of_extremes(page):
    """At one y the index never rises with u, so that it is the greatest at y + 1 and the least at the greatest u."""
    for u_at, chosen in ((lambda y: y + 1, max), (lambda y: 10**9, min)):
        found = []
        for first in range(2000, 500001, MOST_PAIRS):
            oils = [(u_at(y), y) for y in range(first, min(first + MOST_PAIRS, 500001))]
            found += zip((index for index, _, _ in records(oils)), oils)
        u, y = chosen(found)[1]
        if f"`({u}, {y}) {printed((u, y))}`" not in page:
            yield f"the {'greatest' if chosen is max else 'least'} index is that of ({u}, {y})"


def complaints_of_pictures(page):
    shown = set(re.findall(r"\]\(pictures/([^)]+)\)", page))
    there = {path.name for path in (ROOT / "docs/pictures").iterdir()}
    if shown != there:
        yield f"shown and drawn pictures differ: {sorted(shown ^ there)}"


def digits(page):
    """Where the digits stand of which each change has to be noticed: in the blocks, in the tables but for their first column, and in the
    answers behind their pair, since another pair may have the same answer."""
    for block, signs in zip(BLOCK.finditer(page), (string.digits, string.hexdigits)):
        yield from (at for at in range(*block.span(1)) if page[at] in signs)
    for table in TABLE.finditer(page):
        at = table.start()
        for line in table.group().split("\n"):
            behind = line.find("|", 1)
            yield from (at + i for i, sign in enumerate(line) if behind < i and sign.isdigit())
            at += len(line) + 1
    for answer in ANSWER.finditer(page):
        yield from (at for at in range(*answer.span(3)) if page[at].isdigit())


def changed(digit):
    return "0" if digit in "9abcdef" else str(int(digit) + 1)


def main():
    page = PAGE.read_text(encoding="utf-8")
    found = [*complaints(page), *complaints_of_extremes(page), *complaints_of_pictures(page)]
    places = sorted(set(digits(page)))
    for at in [] if found else places:
        if not any(complaints(page[:at] + changed(page[at]) + page[at + 1:])):
            line = page.count("\n", 0, at) + 1
            found.append(f"a digit of line {line} can be changed: {page[max(0, at - 10):at]}[{page[at]}]{page[at + 1:at + 10]}")
    for complaint in found:
        print("method:", complaint)
    if found:
        return 1
    print(f"method: every number is right, and each of {len(places)} changed digits is noticed")
    return 0


sys.exit(main())
