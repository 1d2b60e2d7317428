"""Which contents are numbers, and which texts were meant as one."""

import re
from collections.abc import Callable
from dataclasses import dataclass
from decimal import Decimal
from fractions import Fraction

from .formula import GREATEST, fits

DIGITS = 38
"""Whatever so many digits spell fits."""

SPELLED = re.compile(r"[-+]?[0-9]+(?:\.[0-9]+|/[0-9]+)?")
SPACES = " \t\u00a0\u2007\u2009\u202f"
FIGURES = r"(?:[0-9]+(?:\.[0-9]*)?|\.[0-9]+)"


def is_number(text: str) -> bool:
    """Whether a content is read as a number."""
    if SPELLED.fullmatch(text) is None:
        return False
    above, is_quotient, below = text.partition("/")
    if not is_quotient:
        return len(text) <= DIGITS or fits(Fraction(text))
    return 0 < int(below) <= GREATEST and abs(int(above)) <= GREATEST


@dataclass(frozen=True)
class Spelling:
    """A way to write a number that isn't read as one, and what to write instead."""

    pattern: re.Pattern[str]
    advice: Callable[[re.Match[str]], str]


def write(text: str) -> str:
    return f"write {text}"


def plain(text: str) -> str:
    """A number as digits with a point, without an exponent."""
    return f"{Decimal(text):f}"


def percent(found: re.Match[str]) -> str:
    return write(plain(str(Decimal(found[1].replace(",", ".")) / 100)))


def decimal_comma(found: re.Match[str]) -> str:
    whole, places = found[1], found[2]
    other = f", or {whole}{places} if the comma parts thousands" if len(places) == 3 else ""
    return f"decimals have a point: {write(f'{whole}.{places}')}{other}"


def exponent(found: re.Match[str]) -> str:
    power = int(re.split("[eE]", found[0])[1])
    written = f"{write(plain(found[0]))}, or " if abs(power) < 30 else ""
    return f"{written}={found[0]} with set" if written else f"write ={found[0]} with set"


def no_date(_: re.Match[str]) -> str:
    return "there are no dates: count days or months in whole numbers; behind an apostrophe it is a text that is meant"


def spelling(pattern: str, advice: Callable[[re.Match[str]], str]) -> Spelling:
    return Spelling(re.compile(pattern), advice)


def no_time(found: re.Match[str]) -> str:
    """What to write for a time of day, at a clock of 12 hours too."""
    half = (found[4] or "").lower()
    hours = Decimal(found[1]) % (12 if half else 100) + (12 if half == "p" else 0) + Decimal(found[2]) / 60 + Decimal(found[3] or 0) / 3600
    written = f"{found[1].lstrip('0') or '0'}:{found[2]}{f' {half}m' if half else ''} is {hours:f} hours; " if Fraction(hours) * 100 % 1 == 0 else ""
    return f"there are no times: {written}count hours or minutes as numbers; behind an apostrophe it is a text that is meant"


def thousands(found: re.Match[str]) -> str:
    """A number with a letter or a word behind it for thousands or more."""
    number = Fraction(found[1].replace(",", ".")) * 1000 ** THOUSANDS[found[2].lower().rstrip(".")]
    return write(plain(str(Decimal(number.numerator) / Decimal(number.denominator))))


def accounting(found: re.Match[str]) -> str:
    return f"parentheses make no negative number: {write('-' + figures(found[1]))}"


def mixed(found: re.Match[str]) -> str:
    whole, above, below = map(int, found.groups())
    return write(str(whole + Fraction(above, below)))


def figures(text: str) -> str:
    """The digits and the point of a number, without what parts thousands; a comma before one or two last digits is its point."""
    whole, comma, places = text.rpartition(",")
    if comma and re.fullmatch("[0-9]{1,2}[^0-9]*", places):
        return f"{re.sub('[^-+0-9]', '', whole)}.{re.sub('[^0-9]', '', places)}"
    plainly = re.sub(r"[^-+0-9.]", "", text)
    return f"0{plainly}" if plainly.startswith(".") else plainly


def amount(text: str) -> str:
    """What to write for an amount of money; three digits behind a point may be thousands."""
    plainly = figures(text)
    other = f", or {plainly.replace('.', '')} if the point parts thousands" if re.fullmatch(r"[-+]?[1-9][0-9]{0,2}\.[0-9]{3}", plainly) else ""
    return write(plainly) + other


MONTH = r"(?i:jan|feb|mar|apr|may|jun|jul|aug|sep|oct|nov|dec)[a-zA-Z]*\.?"
THOUSANDS = {"k": 1, "thousand": 1, "mio": 2, "million": 2, "millions": 2, "bn": 3, "billion": 3, "billions": 3}
CURRENCIES = "EUR|USD|GBP|CHF|JPY|SEK|NOK|DKK|PLN|CZK|CAD|AUD|Euro|Fr|Rs"
PARTED = (
    rf"[0-9]{{1,3}}(?:[,'’_{SPACES}][0-9]{{3}})*(?:\.[0-9]+)?|[0-9]+(?:\.[0-9]+)?"
    rf"|[0-9]{{1,3}}(?:[.'’_{SPACES}][0-9]{{3}})*,[0-9]{{1,2}}|[0-9]+,[0-9]{{1,2}}"
)
DATE = spelling(
    r"[0-9]{4}([-/.])[0-9]{1,2}\1[0-9]{1,2}|[0-9]{1,2}([./-])[0-9]{1,2}\2[0-9]{2,4}"
    rf"|[0-9]{{1,2}}\.?[ -]{MONTH}[ -][0-9]{{2,4}}|{MONTH} [0-9]{{1,2}},? [0-9]{{4}}",
    no_date,
)
TIME = spelling(r"([0-9]{1,2})[:h]([0-5][0-9])(?::([0-5][0-9]))?(?: ?([AaPp])\.?[Mm]\.?)?", no_time)
SPELLINGS = (
    spelling(rf"([-+]?{FIGURES}|[-+]?[0-9]+,[0-9]+)[{SPACES}]*%", percent),
    spelling(r"([-+]?[0-9]+),([0-9]+)", decimal_comma),
    spelling(rf"[-+]?[0-9]{{1,3}}(?:[,'’_{SPACES}][0-9]{{3}})+(?:\.[0-9]+)?", lambda found: write(re.sub(r"[^-+0-9.]", "", found[0]))),
    spelling(rf"([-+]?[0-9]{{1,3}}(?:[.'’_{SPACES}][0-9]{{3}})+),([0-9]+)", lambda found: write(f"{re.sub('[^-+0-9]', '', found[1])}.{found[2]}")),
    spelling(r"[-+]?[0-9]{1,3}(?:\.[0-9]{3}){2,}", lambda found: write(found[0].replace(".", ""))),
    spelling(rf"[-+]?{FIGURES}[eE][-+]?[0-9]{{1,9}}", exponent),
    spelling(r"([-+]?)(\.[0-9]+)", lambda found: write(f"{found[1]}0{found[2]}")),
    spelling(r"([-+]?[0-9]+)\.", lambda found: write(found[1])),
    DATE,
    TIME,
    spelling(rf"\(((?:[$€£¥]\s*)?(?:{PARTED}))\)", accounting),
    spelling(rf"([-+]?(?:{FIGURES}|[0-9]+,[0-9]+))[{SPACES}]*(k|(?i:thousand|mio\.?|millions?|bn|billions?))", thousands),
    spelling(rf"(?:{CURRENCIES})\.?[{SPACES}]*([-+]?(?:{PARTED}))(?:\.?[-–—]+)?", lambda found: amount(found[1])),
    spelling(rf"({PARTED})[.,][-–—]+", lambda found: write(figures(found[1]))),
    spelling(rf"(?:[~≈]|(?i:ca\.?|circa|about|approx\.?))[{SPACES}]*([-+]?{FIGURES})", lambda found: write(found[1])),
    spelling(rf"[-+]?[$€£¥][{SPACES}]*[-+]?(?:{PARTED}|\.[0-9]+)", lambda found: amount(found[0])),
    spelling(rf"[-+]?(?:{PARTED}|\.[0-9]+)[{SPACES}]*[$€£¥]", lambda found: amount(found[0])),
    spelling(rf"([-+]?{FIGURES})[;,]", lambda found: write(found[1])),
    spelling(rf"([-+])[{SPACES}]+({FIGURES})", lambda found: write(found[1].replace("+", "") + found[2])),
    spelling(r"([0-9]+) ([0-9]+)/([1-9][0-9]*)", mixed),
    spelling(r"(?i:true|false)", lambda found: write(found[0].upper())),
    spelling(r"[-+]?(?i:nan|inf|infinity)", lambda _: "no number is like that: leave it out"),
    spelling(r"[-+]?[0-9]+(?:\.[0-9]+)?(?:/[0-9]+)?", lambda _: "it doesn't fit in 128 bits, or its denominator is 0"),
)


UNITS = (
    "kWh|Wh|MWh|GWh|kW|W|MW|V|A|m|m2|m3|m²|m³|cm|mm|km|km/h|g|kg|mg|t|l|L|ml|cl|s|sec|min|h|hrs?|hours?|days?"
    "|weeks?|months?|years?|EUR|USD|GBP|CHF|ct|cents?|pcs|pieces|°C|K|kB|MB|GB|TB"
)


def without_unit(found: re.Match[str]) -> str:
    number = found[1].replace(",", ".")
    return f"{write('0' * number.startswith('.') + number)}, and the unit, {found[2]}, into another cell"


UNIT = rf"(?:{UNITS})\.?|(?:{UNITS}|[$€£¥])/(?:{UNITS})"
WITH_UNIT = spelling(rf"([-+]?(?:{FIGURES}|[0-9]+,[0-9]+|[0-9]+/[0-9]+))[{SPACES}]*[(\[]?({UNIT})[)\]]?", without_unit)


def is_value(text: str) -> bool:
    """Whether a content is read as a number or a truth value."""
    return is_number(text) or text in ("TRUE", "FALSE")


def meant_as_number(text: str, has_unit: bool = True) -> str | None:
    """What to write for a text that was meant as a number or a truth value; None for other contents.

    A number with a unit behind it counts too, if it may have one.
    """
    if is_value(text):
        return None
    trimmed = text.strip(SPACES).replace("\u2212", "-").replace("\u2013", "-")
    if is_value(trimmed):
        return write(trimmed) + (", without spaces around it" if text.strip(SPACES) != text else ", with the minus sign of the keyboard")
    for known in (*SPELLINGS, WITH_UNIT) if has_unit else SPELLINGS:
        found = known.pattern.fullmatch(trimmed)
        if found is not None:
            return known.advice(found)
    return None


def is_date(text: str) -> bool:
    """Whether it is a date or a time."""
    return any(known.pattern.fullmatch(text.strip(SPACES)) is not None for known in (DATE, TIME))
