"""Makes the spreadsheets of this folder that LibreOffice has to calculate: make.py FOLDER.

rewrites.ods has formulas with functions that are said otherwise here, over numbers, texts and empty cells; the others are workbooks as a
planner has them. Each is written as .fods, or as Excel's parts, and soffice makes an .ods of it; what has no cells is left out of that.
"""

import subprocess
import sys
import zipfile
from itertools import product
from pathlib import Path

from workbooks import HEAD, TAIL, WORKBOOKS, excel, sheet

KEPT = ("mimetype", "content.xml", "META-INF/manifest.xml")

NUMBERS = ("-7.5", "-6", "-3", "-1", "-0.25", "0", "0.25", "1", "2", "2.5", "3", "7", "7.5", "1000003", "TRUE", "", "'word")
"""What stands in Data.A1:A17; an empty one is an empty cell."""

ORDERS = (
    ("north", "bolt", "400", "0.12"),
    ("south", "bolt", "150", "0.12"),
    ("north", "nut", "1000", "0.03"),
    ("south", "clamp", "", "2.5"),
    ("north", "clamp", "60", "'none"),
    ("east", "bolt", "-20", "0.5"),
    ("east", "nut", "0", "1"),
    ("north", "bolt", "15", "0.2"),
)
"""Data.C1:F8: region, item, pieces and price."""

ONE_NUMBER = ("ISEVEN", "ISODD", "EVEN", "N", "CEILING", "FLOOR")
STEPS = ("2", "0.5", "3")
EXPRESSIONS = (
    "ROWS([$Data.C1:.C8])", "ROWS([$Data.C1])", "COLUMNS([$Data.C1:.F8])", "COLUMNS([.$B$2])", "ROW()", "COLUMN()", "ROW([$Data.C7])",
    "COLUMN([$Data.F2])",
    "ROWS([$Data.A$2:.$C9])*COLUMNS([$Data.A$2:.$C9])", "ROWS(orders)", "COLUMNS(orders)",
    "DATE(2024;2;29)", "DATE(2026;1;31)", "DATE(2026;13;1)", "DATE(2026;2;31)", "DATE(1900;1;1)", "DATE(2026;0;1)", "DATE(2026;1;0)",
    "DATE(2023;25;400)",
    "DATE(1999;12;31)+1", "PI()", "PI()*2",
    "margin*100", "2^margin_2", "-margin_2", "price_of_nut+1", "SUM(pieces)", "2*twice", "total/COUNT(pieces)",
    "COM.MICROSOFT.IFS([$Data.E1]>500;1;[$Data.E1]>100;2)", "COM.MICROSOFT.IFS([$Data.E1]>500;1;[$Data.E1]>450;2)",
    "COM.MICROSOFT.IFS(FALSE();1/0;TRUE();7)", "COM.MICROSOFT.IFS(1/0;1;TRUE();7)", "COM.MICROSOFT.IFS([$Data.A16];1;TRUE();8)",
    "COM.MICROSOFT.IFS(1=1;[$Data.A16])",
    "COM.MICROSOFT.SWITCH(2;1;\"one\";2;\"two\";\"other\")", "COM.MICROSOFT.SWITCH(9;1;\"one\";2;\"two\";\"other\")",
    "COM.MICROSOFT.SWITCH(9;1;\"one\";2;\"two\")",
    "COM.MICROSOFT.SWITCH([$Data.C2];\"north\";1;\"south\";2)", "COM.MICROSOFT.SWITCH(2;2;\"two\";1/0;\"x\")",
    "COM.MICROSOFT.SWITCH(3;1/0;\"two\";3;\"x\")",
    "COM.MICROSOFT.SWITCH([$Data.A8]+1;1;10;2;20;30)*2", "COM.MICROSOFT.SWITCH(1/0;1;2;3)",
    "COM.MICROSOFT.CONCAT([$Data.C1];\"-\";[$Data.D1])", "COM.MICROSOFT.CONCAT(\"a\";\"b\")&\"c\"",
    "COM.MICROSOFT.CONCAT([$Data.E1];[$Data.A16])",
    "LARGE([$Data.E1:.E8];1)", "SMALL([$Data.E1:.E8];1)", "LARGE([$Data.C1:.C8];1)", "SMALL([$Data.A16:.A17];1)",
    "LARGE([$Data.A15:.A17];1)", "LARGE([$Data.G1:.G9];1)",
    "COUNTBLANK([$Data.E1:.E8])", "COUNTBLANK([$Data.A14:.A19])", "COUNTBLANK([$Data.C1:.F8])", "COUNTBLANK([$Data.H1:.H3])",
    "COUNTBLANK([$Data.G1:.G4])",
    "SUMSQ([$Data.E1:.E8])", "SUMSQ([$Data.F1:.F8])", "SUMSQ([$Data.C1:.C8])", "SUMSQ([$Data.G1:.G4])",
    "IF(1=1;;5)", "IF(1=2;5;)", "ROUND(2.6;)", "VLOOKUP(\"nut\";[$Data.D1:.E8];2;)", "IF([$Data.A7]>0;)",
)
PRODUCTS = (
    '([$Data.C1:.C8]="north")*[$Data.E1:.E8]', '([$Data.C1:.C8]="north")*([$Data.D1:.D8]="bolt")*[$Data.E1:.E8]', '([$Data.E1:.E8]>50)*1',
    '--([$Data.E1:.E8]>50)',
    '[$Data.E1:.E8]>50', '([$Data.E1:.E8]>0)*([$Data.E1:.E8]<500);[$Data.F1:.F8]', '([$Data.C1:.C8]="north");[$Data.E1:.E8]',
    '[$Data.E1:.E8]^2', '[$Data.E1:.E8]*2+1',
    'ABS([$Data.E1:.E8]);[$Data.E1:.E8]', 'IF([$Data.E1:.E8]>50;1;0)', '([$Data.C1:.C8]=[$Data.C6])*[$Data.E1:.E8]',
    'ISNUMBER([$Data.F1:.F8])*1', '[$Data.F1:.F8]*2',
    'pieces*2', '(pieces>[$Data.E5])*margin', '([$Data.C1:.D4]="north")*([$Data.E1:.F4]>1)', '1/[$Data.E1:.E3]', '[$Data.I1:.I3]*2',
    'MOD([$Data.A1:.A3];2)*[$Data.A4:.A6]',
    '([$Data.A1:.A17]>1)*1', 'NOT([$Data.A6:.A9])*1', '[$Data.A15:.A16]*1', 'LEN([$Data.C1:.C8])', '[$Data.F1:.F8];[$Data.E1:.E8]',
)
"""What SUMPRODUCT works out place by place."""

SINGLE = (
    "COUNTIFS([$Data.I1:.I3];\"<>5\")",
    "COUNTIF([$Data.I1:.I3];\"<>5\")",
    "SUMIF([$Data.E1:.E8];\"<>0\")",
    "COUNTIFS([$Data.E1:.E9];[$Data.K1])",
    "SUMIFS([$Data.F1:.F8];[$Data.E1:.E8];[$Data.K1];[$Data.C1:.C8];[$Data.K2])",
    "COUNTIF([$Data.H1:.H4];\"<>x\")",
    "COUNTIFS([$Data.H1:.H4];\"<>x\")",
    "SUMIFS([$Data.C8:.F8];[$Data.C6:.F6];\"<>north\")",
    "SUMIFS([$Data.E1:.E1048576];[$Data.C1:.C1048576];\"north\")",
    "AVERAGEIFS([$Data.I1:.I3];[$Data.J1:.J3];\"c\")",
    "SUMIFS([$Data.E1:.F8];[$Data.E1:.F8];\">1\")",
    "SUMIFS([$Data.I1:.I3];[$Data.J1:.J3];\"a\")",
    "COUNTIFS([$Data.I1:.I3];\">0\";[$Data.J1:.J3];\"b\")",
)
"""Conditions that stand alone."""

MULTIPLES = ("MROUND([$Data.A{};2)", "MROUND([$Data.A{};0.5)", "MROUND([$Data.A{};3)")
CRITERIA = ('"north"', '"south"', '"west"', '"<>north"', '[$Data.C6]')
SECOND = ('"bolt"', '"<>bolt"', '"gear"')
NUMERIC = ('">0"', '"<=60"', '"<>0"', '"=15"', '0', '[$Data.A12]', '"<"&[$Data.E2]')


def formulas() -> list[str]:
    found = [f"{name}([$Data.A{row}])" for name, row in product(ONE_NUMBER, range(1, len(NUMBERS) + 1))]
    found += [f"{name}([$Data.A{row}];{step})" for name, step, row in product(("CEILING", "FLOOR"), STEPS, range(1, len(NUMBERS) + 1))]
    found += [f"COM.MICROSOFT.{name}([$Data.A{row}];{step})" for name, step, row in product(("CEILING", "FLOOR"), STEPS, range(1, len(NUMBERS) + 1))]
    for name, row in product(("CEILING.MATH", "FLOOR.MATH"), range(1, len(NUMBERS) + 1)):
        found += [f"COM.MICROSOFT.{name}([$Data.A{row}]{more})" for more in ("", ";2", ";0.5", ";3;0")]
    by_cells = product(("CEILING", "FLOOR"), (3, 6, 9, 10), range(1, len(NUMBERS) + 1, 2))
    found += [f"{name}([$Data.A{row}];[$Data.A{step}])" for name, step, row in by_cells]
    regions, items, pieces, prices = ("[$Data.C1:.C8]", "[$Data.D1:.D8]", "[$Data.E1:.E8]", "[$Data.F1:.F8]")
    for one, two in product(CRITERIA, SECOND):
        found += [f"SUMIFS({pieces};{regions};{one};{items};{two})", f"COUNTIFS({regions};{one};{items};{two})"]
        others = product(("AVERAGEIFS", "COM.MICROSOFT.MAXIFS", "COM.MICROSOFT.MINIFS"), (pieces, prices))
        found += [f"{name}({values};{regions};{one};{items};{two})" for name, values in others]
    for one, two in product(CRITERIA, NUMERIC):
        found += [f"SUMIFS({prices};{regions};{one};{pieces};{two})", f"COUNTIFS({pieces};{two};{regions};{one})"]
    for one in NUMERIC:
        found += [f"AVERAGEIF({pieces};{one})", f"AVERAGEIF({pieces};{one};{prices})"]
        found += [f"SUMIFS({pieces};{pieces};{one})", f"COUNTIFS({pieces};{one})"]
    found += [f"AVERAGEIF({regions};{one};{prices})" for one in CRITERIA]
    found += [f"COUNTIF({regions};{one})" for one in CRITERIA] + [f"COUNTIF({pieces};{one})" for one in NUMERIC]
    found += [f"SUMIF({regions};{one};{pieces})" for one in CRITERIA] + [f"SUMIF({pieces};{one};{prices})" for one in NUMERIC]
    found += SINGLE
    found += [text.format(f"{row}]") for text, row in product(MULTIPLES, range(1, len(NUMBERS) + 1))]
    return [*found, *(f"SUMPRODUCT({inside})" for inside in PRODUCTS), *EXPRESSIONS]


def data_rows() -> list[list[str]]:
    """Numbers in A, orders in C to F, texts that are empty in H, an error among numbers in I, letters in J, criteria in K."""
    rows = [[number, "", *(ORDERS[at] if at < len(ORDERS) else [""] * 4), *[""] * 5] for at, number in enumerate(NUMBERS)]
    rows[0][10], rows[1][10] = "'<>0", "'<>north"
    for at, (empty, number, letter) in enumerate(zip(('=""', '=""', "x"), ("5", "=1/0", "7"), ("a", "b", "a"))):
        rows[at][7:10] = [empty, number, letter]
    return rows


NAMES = """<table:named-expressions>
<table:named-range table:name="orders" table:base-cell-address="$Cases.$A$1" table:cell-range-address="$Data.$C$1:.$F$8"/>
<table:named-range table:name="pieces" table:base-cell-address="$Cases.$A$1" table:cell-range-address="$Data.$E$1:.$E$8"/>
<table:named-expression table:name="margin" table:base-cell-address="$Cases.$A$1" table:expression="0.35"/>
<table:named-expression table:name="margin_2" table:base-cell-address="$Cases.$A$1" table:expression="1+2"/>
<table:named-expression table:name="total" table:base-cell-address="$Cases.$A$1" table:expression="SUM([$Data.$E$1:.$E$8])"/>
<table:named-expression table:name="twice" table:base-cell-address="$Cases.$A$1" table:expression="margin_2*2"/>
<table:named-expression table:name="price_of_nut" table:base-cell-address="$Cases.$A$1" table:expression="[$Data.$F$3]"/>
</table:named-expressions>
"""


def rewrites() -> str:
    return HEAD + sheet("Cases", [[f"={formula}"] for formula in formulas()]) + sheet("Data", data_rows()) + NAMES + TAIL


def slimmed(path: Path) -> None:
    """Leaves the parts of an .ods file that have cells."""
    with zipfile.ZipFile(path) as archive:
        parts = {name: archive.read(name) for name in KEPT}
    with zipfile.ZipFile(path, "w", zipfile.ZIP_DEFLATED) as archive:
        for name, content in parts.items():
            archive.writestr(zipfile.ZipInfo(name, (2026, 1, 1, 0, 0, 0)), content, zipfile.ZIP_DEFLATED)


def convert(source: Path) -> None:
    words = ["soffice", "--headless", "--convert-to", "ods", "--outdir", str(source.parent), str(source)]
    subprocess.run(words, check=True, stdout=subprocess.DEVNULL, stderr=subprocess.DEVNULL)
    slimmed(source.with_suffix(".ods"))


def main() -> None:
    folder = Path(sys.argv[1])
    texts = {"rewrites": rewrites(), **{name: made() for name, made in WORKBOOKS.items()}}
    for name, text in texts.items():
        source = folder / f"{name}.fods"
        source.write_text(text)
        convert(source)
        source.unlink()
    with zipfile.ZipFile(folder / "tables.xlsx", "w", zipfile.ZIP_DEFLATED) as archive:
        for name, part in excel().items():
            archive.writestr(zipfile.ZipInfo(name, (2026, 1, 1, 0, 0, 0)), part, zipfile.ZIP_DEFLATED)
    convert(folder / "tables.xlsx")


if __name__ == "__main__":
    main()
