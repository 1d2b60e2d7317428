"""LARGE and SMALL: of the numbers of which fewer than k are greater, the least is the k-th; a column of help has them."""

import re

from .conditions import cut, used_rows
from .helpers import pinned, rectangle_of, reference, relative_cell
from .parameters import NO_VALUE, operands, range_of, shape
from .pieces import Call, CannotGoOver
from .translate import Rule, Translator

MOST_COMPARED = 2_000
"""Each cell of a range is compared with all of them."""


def ranked(first: str, last: str, sign: str) -> Rule:
    """LARGE or SMALL by a whole number, as it stands: of fewer numbers an error, which MAX and MIN aren't."""

    def rule(book: Translator, call: Call) -> str:
        values, which = operands(book, call, 2, 2)
        if re.fullmatch("[1-9][0-9]{0,5}", which) is None or range_of(call.parameters[0], book) is None:
            raise CannotGoOver(f"{call.name} of what is no range, or by what is no whole number above 0")
        if which == "1":
            return f"IF(COUNT({values})=0;{first}({values})+{NO_VALUE};{first}({values}))"
        whole = rectangle_of(values)
        place = cut(whole, used_rows(book, [whole]))
        values = values if place == whole else reference(place)
        if place.cells() > MOST_COMPARED:
            raise CannotGoOver(f"{call.name} of more than {MOST_COMPARED:,} cells, each of which is compared with all")
        cell = relative_cell(place)
        is_near = f'COUNTIF({pinned(reference(place))};"{sign}"&{cell})<{which}'
        chosen = f'=IF(ISNUMBER({cell})+ISERROR({cell});IF({is_near};{cell};"");"")'
        why = f"the numbers of {place.first}:{place.last} of which fewer than {which} are {'greater' if sign == '>' else 'less'}"
        block = book.helpers.block(place.first.row, *shape(reference(place)), chosen, why)
        return f"IF(COUNT({values})<{which};{first}({values})+{NO_VALUE};{last}({block.text}))"

    return rule


RANKS: dict[str, Rule] = {"LARGE": ranked("MAX", "MIN", ">"), "SMALL": ranked("MIN", "MAX", "<")}
