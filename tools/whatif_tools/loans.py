"""PMT, FV, PV and NPER in rounded steps: another model than the closed form, and only where it is asked for."""

from .helpers import Block, pinned, reference
from .parameters import NO_VALUE, one_value
from .pieces import Call, CannotGoOver
from .sheet import Address, Rectangle
from .translate import Rule, Translator

PLACES = 12
PLACES_OF_RESULT = 8
PLACES_OF_COUNT = 6
MOST_STEPS = 1_200
STEPS_IN_DOUBT = 600
"""So many periods are made where their count isn't a number in the formula."""

HALVINGS = 30
"""So many steps lead from one period to the next, each half as wide as the one before."""


def cell_at(place: Address) -> str:
    """A cell, which moves when it is filled."""
    return reference(Rectangle(place, place))


def next_cell(book: Translator, row: int = 1) -> str:
    """A cell of the block that is made next."""
    return cell_at(Address(row, book.helpers.column + 1))


def factors(book: Translator, rate: str, steps: int) -> Block:
    """What 1 has grown to after each period: a column of factors, each rounded to 12 places."""
    fixed, above = pinned(rate), next_cell(book)
    why = f"what 1 has grown to at {rate}, a period in each row, rounded to {PLACES} places: steps, no closed form"
    return book.helpers.block(1, steps + 1, 1, f"=1+0*{fixed}", why, f"=ROUND({above}*(1+{fixed});{PLACES})")


def growth(book: Translator, rate: str, periods: str) -> str:
    """(1 + rate) ^ periods."""
    steps = int(periods) if periods.isdigit() else STEPS_IN_DOUBT
    if steps > MOST_STEPS:
        raise CannotGoOver(f"a loan of more than {MOST_STEPS} periods")
    return f"INDEX({factors(book, rate, steps).text};{periods}+1)"


def parts_of(book: Translator, call: Call) -> tuple[str, str, str, str, str]:
    """The rate, the second parameter, and the last three, 0 where they are left out."""
    if not book.expands_loans:
        raise CannotGoOver(f"{call.name} isn't a function of whatif; --expand-loans reckons it in rounded steps")
    rate, second, *rest = one_value(book, call, 3, 5)
    third, fourth, kind = [*rest, "0", "0"][:3]
    return rate, second, third, fourth, kind


def payment(book: Translator, call: Call) -> str:
    """PMT(rate; periods; present value; future value; type)."""
    rate, periods, present, future, kind = parts_of(book, call)
    grown = growth(book, rate, periods)
    interest = f"-({present}*{grown}+{future})*{rate}/(({grown}-1)*(1+{rate}*{kind}))"
    return f"ROUND(IF({rate}=0;-({present}+{future})/{periods};{interest});{PLACES_OF_RESULT})"


def future_value(book: Translator, call: Call) -> str:
    """FV(rate; periods; payment; present value; type)."""
    rate, periods, paid, present, kind = parts_of(book, call)
    grown = growth(book, rate, periods)
    interest = f"-({present}*{grown}+{paid}*(1+{rate}*{kind})*({grown}-1)/{rate})"
    return f"ROUND(IF({rate}=0;-({present}+{paid}*{periods});{interest});{PLACES_OF_RESULT})"


def present_value(book: Translator, call: Call) -> str:
    """PV(rate; periods; payment; future value; type)."""
    rate, periods, paid, future, kind = parts_of(book, call)
    grown = growth(book, rate, periods)
    interest = f"-({future}+{paid}*(1+{rate}*{kind})*({grown}-1)/{rate})/{grown}"
    return f"ROUND(IF({rate}=0;-({future}+{paid}*{periods});{interest});{PLACES_OF_RESULT})"


def count_of_periods(book: Translator, call: Call) -> str:
    """NPER(rate; payment; present value; future value; type): the logarithm of what 1 has to grow to, in steps.

    Whole periods are counted along the factors. What is left is squared again and again: each time that it has grown by more than a
    period, a half, a quarter and so on of one is in it.
    """
    rate, paid, present, future, kind = parts_of(book, call)
    fixed = pinned(rate)
    grown = factors(book, rate, STEPS_IN_DOUBT).text
    each, above = f"{paid}*(1+{rate}*{kind})", next_cell(book)
    turned = f"=IF({above}<=0;{NO_VALUE};ROUND(IF({above}<1;1/{above};{above});{PLACES}))"
    sought = book.helpers.block(1, 2, 1, f"=({each}-{future}*{rate})/({each}+{present}*{rate})", "what 1 has to grow to, and that or 1 by it", turned)
    target, above = cell_at(sought.place.last), next_cell(book)
    whole = f"MATCH({target};{grown};1)"
    start = f"=ROUND({target}/INDEX({grown};{whole});{PLACES})+0*INDEX({grown};{whole}+1)"
    squared = f"=ROUND({above}*{above}/IF({above}*{above}<1+{fixed};1;1+{fixed});{PLACES})"
    left = book.helpers.block(1, HALVINGS, 1, start, "what is left of it behind whole periods, then its square, less a period if that is in it", squared)
    cell = cell_at(left.place.first)
    part = f"=(({cell}*{cell}>=1+{fixed})+{next_cell(book, 2)})/2"
    parts = book.helpers.block(1, HALVINGS, 1, part, "the part of a period that is in what is left: the first cell has all of it")
    count = f"IF({cell_at(sought.place.first)}<1;-1;1)*({whole}-1+{cell_at(parts.place.first)})"
    return f"ROUND(IF({present}+{future}=0;0;IF({rate}=0;-({present}+{future})/{paid};{count}));{PLACES_OF_COUNT})"


LOANS: dict[str, Rule] = {"PMT": payment, "FV": future_value, "PV": present_value, "NPER": count_of_periods}
