"""Constants at the edge of what is right, to hold the audit to the verdict of other code: fractions and the decimal module's logarithm.

constant_edges.py questions SEED: lines "temperature viscosity density", most with the formula beside k ± 0.49, 0.50 or 0.51 thousandths.
constant_edges.py change SEED RECORDS CHANGED REFUSED: changes most of the records by so little that many stay right and many do not;
writes them, and the numbers of those that are wrong."""
import random
import sys
from decimal import Decimal, getcontext
from fractions import Fraction

Q, COUNT, APART_MOST = 16777216, 2000, 64
# least and greatest viscosity, what the logarithm's argument starts from; density less the first, less the second times the logarithm,
# divided by the third less the fourth times the logarithm
FORMULAS = {40: (5501, 10**9, 5500, 664, 1154, 9400, 1090), 100: (801, 500000, 800, 1080, 1255, 9000, 970)}
getcontext().prec = 60


def value(temperature, density, log):
    """The formula in thousandths."""
    offset, slope, whole, fall = FORMULAS[temperature][3:]
    return 1000 * (density - offset - slope * log) / (whole - fall * log)


def question(draw):
    temperature, density = draw.choice((40, 100)), draw.randint(5000, 15000)
    least, greatest, start, offset, slope, whole, fall = FORMULAS[temperature]
    k = round(value(temperature, density, draw.uniform(-2, 6 if temperature == 40 else 2.6)))
    aim = (k + draw.choice((-51, -50, -49, 49, 50, 51)) / 100) / 1000
    log = (density - offset - aim * whole) / (slope - aim * fall)
    viscosity = round(1000 * 10 ** min(max(log, -3), 6)) + start
    if draw.random() < 0.05:
        viscosity, density = draw.choice((least - 1, least, greatest, greatest + 1)), draw.choice((4999, 5000, 15000, 15001))
    return temperature, min(max(viscosity, least - 1), greatest + 1), density


def scaled_log(temperature, viscosity):
    """Q times the logarithm: a fraction where it is one, otherwise to 60 digits, and then no numerator is as near as the last of them."""
    x = viscosity - FORMULAS[temperature][2]
    log = Q * (Decimal(x).log10() - 3)
    assert x == 10 ** (len(str(x)) - 1) or abs(log - round(log)) > Decimal("1e-40")
    return log


def is_right(temperature, viscosity, density, number, *answer):
    least, greatest = FORMULAS[temperature][:2]
    asked = 21 if not least <= viscosity <= greatest else 22 if not 5000 <= density <= 15000 else 0
    if number != asked or number != 0:
        return number == asked
    k, lower, upper = answer
    return (
        lower <= scaled_log(temperature, viscosity) <= upper <= lower + APART_MOST
        and all(abs(value(temperature, density, Fraction(f, Q)) - k) <= Fraction(51, 100) for f in (lower, upper))
    )


def changed(draw, record):
    """The record with one small change, or none."""
    if record[3] != 0:
        return record[:3] + [draw.choice((21, 22))]
    temperature, viscosity, density, number, k, lower, upper = record
    floor = int(scaled_log(temperature, viscosity).to_integral_value("ROUND_FLOOR"))
    kind = draw.randrange(7)
    if kind == 0:
        return [temperature, viscosity, density, draw.choice((21, 22, 23))]
    if kind == 1:
        k += draw.choice((-1, 1))
    elif kind == 2:
        lower = floor + draw.randint(-1, 1)
    elif kind == 3:
        upper = floor + draw.randint(0, 2)
    elif kind == 4:
        lower = upper - draw.choice((64, 65))
    elif kind == 5:
        upper = lower + draw.choice((64, 65))
    return [temperature, viscosity, density, number, k, lower, upper]


def main(words):
    draw = random.Random(int(words[1]))
    if words[0] == "questions":
        for _ in range(COUNT):
            print(*question(draw))
        return
    with open(words[2]) as file:
        records = [changed(draw, [int(word) for word in line.split()]) for line in file]
    with open(words[3], "w") as file:
        file.writelines(" ".join(map(str, record)) + "\n" for record in records)
    with open(words[4], "w") as file:
        file.writelines(f"{i}\n" for i, record in enumerate(records) if not is_right(*record))


main(sys.argv[1:])
