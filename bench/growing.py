"""Scripts of any size n, of which `bench/growth` counts the instructions at n, 2n and 4n."""

import inspect
import random
from collections.abc import Callable
from dataclasses import dataclass

from bench.models import cells, chain, csv, each, edits_in_turn, edits_with_looks, numbers, repeated, table


@dataclass(frozen=True)
class Case:
    """What makes the script, the first n, why it takes more than twice as much at 2n, where that is the work's own, and the greatest n, with what
    it takes, where there is one and that is little."""

    make: Callable[[int], list[str]]
    size: int
    own: str = ""
    end: str = ""

    @property
    def name(self) -> str:
        return self.make.__name__

    @property
    def what(self) -> str:
        """What the script does."""
        return " ".join((inspect.getdoc(self.make) or "").split())

    @property
    def told(self) -> list[tuple[str, str]]:
        """What is told of its growth, each with its head."""
        return [(head, text) for head, text in (("its own", self.own), ("its end", self.end)) if text]


# ---- edits, and a look after each


def edit_head_ask_second(n: int) -> list[str]:
    """The head of a chain of n is edited n times; after each edit the cell below it is shown."""
    return chain(n) + repeated(n, "set A1 #", "show A2")


def edit_far_ask_small(n: int) -> list[str]:
    """The head of a chain of n is edited n times; after each edit a formula that stands apart from it is shown."""
    return chain(n) + ["set B1 5", "set C1 =[.B1]+1"] + repeated(n, "set A1 #", "show C1")


def edit_tail_ask_tail(n: int) -> list[str]:
    """The last cell but one of a chain of n is edited n times; after each edit the last is shown."""
    return chain(n) + [f"show A{n}"] + repeated(n, f"set A{n - 1} #", f"show A{n}")


def edit_head_ask_nothing(n: int) -> list[str]:
    """The head of a chain of n is edited n times, and nothing is shown."""
    return chain(n) + repeated(n, "set A1 #")


def edit_elsewhere_whatif_again(n: int) -> list[str]:
    """A what-if by the head of a chain of n is shown n/5 times; before each a formula apart from it gets another cell to read, and the input
    another number."""
    return chain(n) + ["set B1 7", "set D1 =MULTIPLE.OPERATIONS([.A2];[.A1];[.B1])"] + repeated(n // 5, "set Z1 =[.Y#]+1", "set B1 #", "show D1")


def one_sum_edit_ask(n: int) -> list[str]:
    """n/5 of the n numbers of a sum are edited; after each edit the sum is shown."""
    return numbers(n) + [f"set B1 =SUM([.A1:.A{n}])", "show B1"] + repeated(n // 5, "set A# -#", "show B1")


def prefix_sums(n: int) -> list[str]:
    """Each of n sums reads a column down to its row."""
    return repeated(n, "set B# =SUM([.A1:.A#])")


def prefix_sums_edit_each(n: int) -> list[str]:
    """Each of n sums reads a column down to its row, and each of the n cells is edited."""
    return prefix_sums(n) + repeated(n, "set A# #")


def prefix_sums_edit_ask(n: int) -> list[str]:
    """Each of n sums reads a column down to its row; its first cell is edited 20 times, and after each edit the first sum is shown."""
    return prefix_sums(n) + ["show B1"] + repeated(20, "set A1 #", "show B1")


def prefix_sums_edit_while_changes_wait(n: int) -> list[str]:
    """As prefix_sums_edit_ask, but 100 times, by a session that has asked for changes before."""
    return prefix_sums(n) + ["changes"] + repeated(100, "set A1 #", "show B1")


def one_table_edit_ask(n: int) -> list[str]:
    """n VLOOKUPs read one table, of which a cell is edited 20 times; after each edit one of them is shown."""
    return repeated(n, "set D# =VLOOKUP(#;[.A1:.B1000];2;FALSE())") + ["show D1"] + repeated(20, "set A1 #", "show D1")


def column_sums_edit(n: int) -> list[str]:
    """Each of n columns has a sum below it, and a cell of each is edited."""
    columns = [letters(column) for column in range(1, n + 1)]
    return [f"set {it}101 =SUM([.{it}1:.{it}100])" for it in columns] + [f"set {it}5 7" for it in columns]


def replacements_edit_ask(n: int) -> list[str]:
    """Under a scenario of n replacements the head of a chain of 10 is edited 200 times; after each edit its end is shown."""
    return chain(10) + repeated(n, "scenario s Z# #") + ["use s"] + repeated(200, "set A1 #", "show A10")


# ---- who reads whom


def insert_in_middle(n: int) -> list[str]:
    """A formula is put into the middle of a chain of n, n/5 times."""
    middle = n // 2
    return chain(n) + repeated(n // 5, f"set B# =[.A{middle}]+1", f"set A{middle + 1} =[.B#]+1")


def relink_chains(n: int) -> list[str]:
    """The head of a chain of n reads the end of another, and then the cell above that end, n/5 times."""
    other = ["set B1 1"] + [f"set B{row} =[.B{row - 1}]+1" for row in range(2, n + 1)]
    return chain(n) + other + repeated(n // 5, f"set B1 =[.A{n}]+1", f"set B1 =[.A{n - 1}]+1")


def edits_in_big_cycle_reads_change(n: int) -> list[str]:
    """n cells are one cycle; one after another gets a formula that reads one cell more."""
    return chain(n) + [f"set A1 =[.A{n}]"] + [f"set A{row} =[.A{row - 1}]+[.C{row}]" for row in range(2, n)]


def cycle_closed_and_opened(n: int) -> list[str]:
    """A chain of n is closed to a cycle and opened again, 10 times; each time its second cell is shown."""
    return chain(n) + repeated(10, f"set A1 =[.A{n}]", "show A2", "set A1 1", "show A2")


def readers_along_row_from_right(n: int) -> list[str]:
    """n formulas along a row, with two cells between them, are set from the right; all read one cell."""
    return ["set B1 1"] + [f"set {letters(3 * place)}5 =[.B1]+1" for place in range(n, 0, -1)]


def wide_row_from_right(n: int) -> list[str]:
    """n numbers along a row are set from the right."""
    return [f"set {letters(column)}1 {column}" for column in range(n, 0, -1)]


# ---- formulas that read many cells


def wide_sum_of_refs(n: int) -> list[str]:
    """A formula adds n formula cells by operators."""
    return formulas(n) + ["set B1 =" + "+".join(references(n)), "show B1"]


def wide_sum_of_refs_shuffled(n: int) -> list[str]:
    """A formula adds n formula cells by operators, in a random order."""
    return formulas(n) + ["set B1 =" + "+".join(shuffled(references(n))), "show B1"]


def wide_sum_of_kept_refs(n: int) -> list[str]:
    """A formula adds n formula cells that were shown before."""
    return formulas(n) + [f"show A1:A{n}", "set B1 =" + "+".join(references(n)), "show B1"]


def wide_sum_function_of_refs(n: int) -> list[str]:
    """A SUM has n formula cells as parameters."""
    return formulas(n) + [f"set B1 =SUM({';'.join(references(n))})", "show B1"]


def wide_whatifs(n: int) -> list[str]:
    """A formula adds n what-ifs over a model of 5 formulas."""
    asked = [f"MULTIPLE.OPERATIONS([.A5];[.B1];[.C{row}])" for row in range(1, n + 1)]
    return table(5, 0) + cells("C", 1, n) + ["set D1 =" + "+".join(asked), "show D1"]


def sum_of_formulas(n: int) -> list[str]:
    """A SUM reads a column of n formulas that nothing has asked for."""
    return formulas(n) + [f"set B1 =SUM([.A1:.A{n}])", "show B1"]


def prefix_sums_shown(n: int) -> list[str]:
    """Each of n sums adds the numbers of a column down to its row, and all are shown."""
    return numbers(n) + prefix_sums(n) + [f"show B1:B{n}"]


def running_counts(n: int) -> list[str]:
    """Each of n formulas counts the cells above it, which have such formulas too, and the last is shown."""
    return ["set A1 1"] + [f"set A{row} =COUNT([.A1:.A{row - 1}])" for row in range(2, n + 1)] + [f"show A{n}"]


def whole_column_sums(n: int) -> list[str]:
    """n sums each read a whole column, in which 10 numbers stand."""
    return numbers(10) + each(n, "B", "=SUM([.A1:.A1048576])")


# ---- look-ups


def vlookup_n_by_n(n: int) -> list[str]:
    """n exact VLOOKUPs look into a table of n rows of numbers."""
    return cells("A", 1, n) + cells("B", 1, n) + each(n, "D", f"=VLOOKUP(#;[.A1:.B{n}];2;FALSE())")


def vlookup_n_by_n_formulas(n: int) -> list[str]:
    """n exact VLOOKUPs look into a table of n rows of formulas that were shown before."""
    rows = repeated(n, "set A# =#+0", "set B# =#+0")
    return rows + [f"show A1:B{n}"] + each(n, "D", f"=VLOOKUP(#;[.A1:.B{n}];2;FALSE())")


def sumif_n_by_n(n: int) -> list[str]:
    """n SUMIFs look for one of 10 numbers in n rows."""
    rows = [f"set A{row} {row % 10}" for row in range(1, n + 1)] + cells("B", 1, n)
    asked = [f"set D{row} =SUMIF([.A1:.A{n}];{row % 10};[.B1:.B{n}])" for row in range(1, n + 1)]
    return rows + asked + [f"show D1:D{n}"]


def match_sorted(n: int) -> list[str]:
    """n MATCHes look into a sorted column of n numbers for the greatest that isn't above theirs."""
    return numbers(n) + each(n, "B", f"=MATCH(#;[.A1:.A{n}])")


# ---- what-ifs


def nested_whatif_distinct_inputs(n: int) -> list[str]:
    """n what-ifs each ask the one above it for another input cell than all others, and the last is shown."""
    asked = [f"set D{row} =MULTIPLE.OPERATIONS([.D{row - 1}];[.B{row}];[.C{row}])+[.B{row}]" for row in range(2, n + 1)]
    return cells("B", 1, n) + ["set D1 =[.B1]+1"] + asked + [f"show D{n}"]


def whatifs_many_inputs(n: int) -> list[str]:
    """n what-ifs each replace another of n inputs, which a chain of n reads too, and ask for one formula."""
    read = ["set A1 =[.B1]"] + [f"set A{row} =[.A{row - 1}]+[.B{row}]" for row in range(2, n + 1)]
    return read + cells("B", 1, n) + repeated(n, "set C# =[.B#]+1") + each(n, "D", "=MULTIPLE.OPERATIONS([.C#];[.B#];[.E#])")


def whatifs_many_inputs_again(n: int) -> list[str]:
    """As whatifs_many_inputs, and then each what-if gets another number, and is shown."""
    return whatifs_many_inputs(n) + repeated(n, "set E# -#", "show D#")


def whatifs_under_replacements(n: int) -> list[str]:
    """Under a scenario of n replacements, which nothing reads, 40 what-ifs are shown."""
    return table(20, 40) + repeated(n, "scenario s Z# 1") + ["use s", "show D1:D40"]


def whatif_column(n: int) -> list[str]:
    """A column of n what-ifs over a model of 20 formulas is shown."""
    return table(20, n) + [f"show D1:D{n}"]


def table_of_one_input(n: int) -> list[str]:
    """A table of n entries over a model of 20 formulas."""
    return table(20, 0) + cells("C", 1, n) + [f"table A20 B1 C1:C{n}"]


def table_of_two_inputs(n: int) -> list[str]:
    """A table of n by n entries over a model of 10 formulas."""
    model = ["set B1 1", "set B2 1", "set A1 =[.B1]*2"] + [f"set A{row} =[.A{row - 1}]+[.B1]*[.B2]" for row in range(2, 11)]
    across = [f"set {letters(9 + place)}20 {place}" for place in range(1, n + 1)]
    return model + cells("C", 1, n) + across + [f"table A10 B1 C1:C{n} B2 J20:{letters(9 + n)}20"]


# ---- sessions and scenarios


def set_against_other_big_clears(n: int) -> list[str]:
    """A session clears n rectangles of 200 cells, and another, which doesn't look, sets n cells elsewhere."""
    return ["as ana"] + [f"clear A{row}:B{row + 99}" for row in range(1, n + 1)] + ["as bo"] + repeated(n, "set D# #")


def big_clears_in_turn(n: int) -> list[str]:
    """Two sessions that don't look clear 260 cells each in turn, n times."""
    return repeated(n, "as ana", "clear A1:A260", "as bo", "clear M1:M260")


def big_fills_against_other_sets(n: int) -> list[str]:
    """A session sets n cells, and another, which doesn't look, fills 50 cells elsewhere n/5 times."""
    return ["as ana"] + numbers(n) + ["as bo", "set Z1 1"] + ["fill Z1 D1:D50"] * (n // 5)


def sets_in_turn(n: int) -> list[str]:
    """Two sessions set n cells in turn, and don't look."""
    return edits_in_turn(n)


def sets_with_looks(n: int) -> list[str]:
    """Two sessions set n cells; each looks after 50 edits of its own."""
    return edits_with_looks(n, 50)


def scenario_used(n: int) -> list[str]:
    """A scenario replaces the head of a chain of n; it is used, and left again, and all changes are asked for each time."""
    return chain(n) + ["scenario s A1 5", "changes", "use s", "changes", "use", "changes"]


def scenario_compared(n: int) -> list[str]:
    """A scenario replaces the head of a chain of n, and is compared with the sheet."""
    return chain(n) + ["scenario s A1 5", f"compare - s A1:A{n}"]


# ---- what is loaded and shown


def chain_shown(n: int) -> list[str]:
    """A chain of n, and its end shown."""
    return chain(n) + [f"show A{n}"]


def chain_upside_down(n: int) -> list[str]:
    """A chain of n in which each cell reads the one below it, and its end shown."""
    return [f"set A{row} =[.A{row + 1}]+1" for row in range(1, n)] + [f"set A{n} 1", "show A1"]


def chain_in_random_order(n: int) -> list[str]:
    """A chain of n whose cells are set in a random order, and its end shown."""
    return shuffled(chain(n)) + [f"show A{n}"]


def sets(n: int) -> list[str]:
    """A column of n numbers is set."""
    return numbers(n)


def csv_in_and_out(n: int) -> list[str]:
    """A CSV of n records of 10 fields is read and exported."""
    return csv(10, n) + [f"export A1:J{n}"]


def formula_filled_down(n: int) -> list[str]:
    """A formula that reads the cell above it is filled down n cells, 10 by 10, and the last is shown."""
    return ["set A1 1", "set A2 =[.A1]+1"] + [f"fill A2 A{row}:A{row + 9}" for row in range(3, n, 10)] + [f"show A{n}"]


# ---- parts of these


def letters(column: int) -> str:
    """A column's name."""
    before, last = divmod(column - 1, 26)
    return (letters(before) if before else "") + chr(ord("A") + last)


def formulas(n: int) -> list[str]:
    """A column of formulas that read nothing."""
    return repeated(n, "set A# =#+1")


def references(n: int) -> list[str]:
    """References to the cells of that column."""
    return [f"[.A{row}]" for row in range(1, n + 1)]


def shuffled(parts: list[str]) -> list[str]:
    """Parts in a random order, which is always the same."""
    return random.Random(3).sample(parts, len(parts))


CASES = {case.name: case for case in (
    Case(edit_head_ask_second, 120),
    Case(edit_far_ask_small, 120),
    Case(edit_tail_ask_tail, 500),
    Case(edit_head_ask_nothing, 1_000),
    Case(edit_elsewhere_whatif_again, 250),
    Case(one_sum_edit_ask, 500, own="after each of n/5 edits n numbers are added"),
    Case(prefix_sums, 1_000),
    Case(prefix_sums_edit_each, 250, own="each of n edited cells is read by up to n sums"),
    Case(prefix_sums_edit_ask, 250),
    Case(prefix_sums_edit_while_changes_wait, 150),
    Case(one_table_edit_ask, 250),
    Case(column_sums_edit, 100),
    Case(replacements_edit_ask, 64),
    Case(insert_in_middle, 250),
    Case(relink_chains, 150),
    Case(edits_in_big_cycle_reads_change, 75),
    Case(cycle_closed_and_opened, 100),
    Case(readers_along_row_from_right, 300, end="a row has room for 5,461 of these, which take 400 M"),
    Case(wide_row_from_right, 2_000, end="a row has 16,384 cells, which take 330 M"),
    Case(wide_sum_of_refs, 50),
    Case(wide_sum_of_refs_shuffled, 50),
    Case(wide_sum_of_kept_refs, 50),
    Case(wide_sum_function_of_refs, 50),
    Case(wide_whatifs, 20, end="a formula has room for 101 what-ifs, which take 9 M"),
    Case(sum_of_formulas, 1_000),
    Case(prefix_sums_shown, 200, own="n sums of up to n numbers"),
    Case(running_counts, 50, own="each of n formulas reads all above it"),
    Case(whole_column_sums, 500),
    Case(vlookup_n_by_n, 200),
    Case(vlookup_n_by_n_formulas, 75),
    Case(sumif_n_by_n, 100, own="each of n SUMIFs adds n/10 numbers"),
    Case(match_sorted, 200),
    Case(nested_whatif_distinct_inputs, 75),
    Case(whatifs_many_inputs, 125),
    Case(whatifs_many_inputs_again, 100),
    Case(whatifs_under_replacements, 20, end="a scenario has 256 replacements at most, which take 25 M"),
    Case(whatif_column, 250),
    Case(table_of_one_input, 500),
    Case(table_of_two_inputs, 15, own="it has n by n entries"),
    Case(set_against_other_big_clears, 200),
    Case(big_clears_in_turn, 50),
    Case(big_fills_against_other_sets, 500),
    Case(sets_in_turn, 2_000),
    Case(sets_with_looks, 2_000),
    Case(scenario_used, 250),
    Case(scenario_compared, 500),
    Case(chain_shown, 2_500),
    Case(chain_upside_down, 1_000),
    Case(chain_in_random_order, 1_000),
    Case(sets, 5_000),
    Case(csv_in_and_out, 500),
    Case(formula_filled_down, 1_000),
)}
"""All cases by their names."""
