"""Workbooks as a planner has them, as flat OpenDocument or as Excel's parts; LibreOffice calculates them.

A cell is written as in a script of whatif: a number, `'` and a text, `=` and a formula, or nothing; `%` or `€` behind a number is its
format, and `2:` before a content shows it with two places.
"""

from xml.sax.saxutils import escape, quoteattr

NAMESPACES = " ".join(
    f'xmlns:{name}="urn:oasis:names:tc:opendocument:xmlns:{urn}:1.0"'
    for name, urn in (("office", "office"), ("table", "table"), ("text", "text"), ("style", "style"), ("number", "datastyle"))
)
HEAD = f"""<?xml version="1.0" encoding="UTF-8"?>
<office:document {NAMESPACES} xmlns:of="urn:oasis:names:tc:opendocument:xmlns:of:1.2" office:version="1.3"
 office:mimetype="application/vnd.oasis.opendocument.spreadsheet">
<office:automatic-styles><number:number-style style:name="N2"><number:number number:decimal-places="2" number:min-decimal-places="2"
 number:min-integer-digits="1"/></number:number-style><style:style style:name="two" style:family="table-cell" style:data-style-name="N2"/>
</office:automatic-styles><office:body><office:spreadsheet>
"""
TAIL = "</office:spreadsheet></office:body></office:document>\n"
Rows = list[list[str]]


def cell(text: str) -> str:
    style = ""
    if text.startswith("2:"):
        style, text = ' table:style-name="two"', text[2:]
    if text == "":
        return "<table:table-cell/>"
    if text.startswith("{="):
        spans = 'table:number-matrix-columns-spanned="1" table:number-matrix-rows-spanned="3"'
        return f'<table:table-cell {spans} table:formula={quoteattr("of:" + text[1:-1])}/>'
    if text.startswith("="):
        return f"<table:table-cell{style} table:formula={quoteattr('of:' + text)}/>"
    if text.startswith("day "):
        return f'<table:table-cell office:value-type="date" office:date-value="{text[4:]}"/>'
    if text in ("TRUE", "FALSE"):
        return f'<table:table-cell office:value-type="boolean" office:boolean-value="{text.lower()}"/>'
    if text[-1] == "%":
        return f'<table:table-cell office:value-type="percentage" office:value="{text[:-1]}"/>'
    if text[-1] == "€":
        return f'<table:table-cell office:value-type="currency" office:currency="EUR" office:value="{text[:-1]}"/>'
    if text[0] in "-0123456789":
        return f'<table:table-cell{style} office:value-type="float" office:value="{text}"/>'
    return f'<table:table-cell office:value-type="string"><text:p>{escape(text.removeprefix(chr(39)))}</text:p></table:table-cell>'


def sheet(name: str, rows: Rows) -> str:
    written = "".join(f"<table:table-row>{''.join(map(cell, row))}</table:table-row>\n" for row in rows)
    return f"<table:table table:name={quoteattr(name)}>\n{written}</table:table>\n"


def workbook(*sheets: str, settings: str = "", names: str = "") -> str:
    return HEAD + settings + "".join(sheets) + names + TAIL


def named(**found: str) -> str:
    """Names: a range begins with `$`, another text is an expression."""
    base = 'table:base-cell-address="$Recipe.$A$1"'
    kinds = {True: ("named-range", "cell-range-address"), False: ("named-expression", "expression")}
    written = [
        f'<table:{kind} table:name="{name}" {base} table:{attribute}="{text}"/>'
        for name, text in found.items()
        for kind, attribute in (kinds[text.startswith("$")],)
    ]
    return f"<table:named-expressions>{''.join(written)}</table:named-expressions>"


def tariff() -> str:
    """Percent, currency, a date, and a data table of two inputs."""
    rows = [
        ["'consumption", "250", "", "", "0.32€", "0.28€"],
        ["'price", "0.32€", "", "250", *(f"=MULTIPLE.OPERATIONS([.$B$6];[.$B$1];[.$D2];[.$B$2];[.{column}$1])" for column in "EF")],
        ["'fee", "12€", "", "400", *(f"=MULTIPLE.OPERATIONS([.$B$6];[.$B$1];[.$D3];[.$B$2];[.{column}$1])" for column in "EF")],
        ["'tax", "0.19%"],
        ["'from", "day 2026-11-30", "=[.B5]+30"],
        ["'bill", "=([.B1]*[.B2]+[.B3])*(1+[.B4])", "=ROUND([.B6];2)"],
        ["'dear", '=IF([.B6]>100;"yes";"")', "=[.B6]/12"],
    ]
    return workbook(sheet("Tariff", rows))


def recipe() -> str:
    """Two sheets, names, look-ups that differ by capitals, and one in a list that isn't sorted."""
    rows = [
        ["'flour", "2", "=VLOOKUP([.A1];[$Prices.A1:.B4];2;0)", "=[.B1]*[.C1]*(1+margin)"],
        ["'Butter", "1", "=VLOOKUP([.A2];prices;2;0)", "=[.B2]*[.C2]*(1+margin)"],
        ["'sugar", "3", "=VLOOKUP([.A3];prices;2;0)", "=[.B3]*[.C3]*(1+margin)"],
        ["'total", "=SUM([.B1:.B3])", '=COUNTIF([.A1:.A3];"FLOUR")', "=SUM([.D1:.D3])"],
        ["'sorted", '=VLOOKUP("salt";prices;2)', "=IF([.B4]>5;\"\";[.B4])", "=total_cost/2"],
    ]
    prices = [["'salt", "0.5"], ["'flour", "1.2"], ["'butter", "8"], ["'sugar", "1.1"]]
    names = named(prices="$Prices.$A$1:$Prices.$B$4", margin="0.35", total_cost="[$Recipe.$D$4]*1.05")
    return workbook(sheet("Recipe", rows), sheet("Prices", prices), names=names)


def loan() -> str:
    """A payment by PMT, and a chain without ROUND, which no longer fits."""
    rows = [["'rate", "0.0425"], ["'months", "60"], ["'loan", "20000"], ["'payment", "=-PMT([.B1]/12;[.B2];[.B3])"], ["'left", "=[.B3]"]]
    rows += [[f"'month {at}", f"=[.B{at + 4}]*(1+[.$B$1]/12)-370.59"] for at in range(1, 19)]
    return workbook(sheet("Loan", rows))


def break_even() -> str:
    """A data table of one input, and `""` in a column."""
    inputs = (("'jars", "120", "50"), ("'cost", "2.35", "100"), ("'fixed", "240", "200"))
    rows = [[name, text, "", x, f"=MULTIPLE.OPERATIONS([.$B$4];[.$B$1];[.D{at}])"] for at, (name, text, x) in enumerate(inputs, 1)]
    rows += [["'profit", "=[.B1]*(4.5-[.B2])-[.B3]"]]
    rows += [["", f'=IF([.E{at}]<0;"";[.E{at}])', f'=IF([.B{at + 4}]="";"loss";"profit")'] for at in (1, 2, 3)]
    return workbook(sheet("Jars", rows))


def sink() -> str:
    """What else a sheet has: several conditions, wildcards, an array formula, sums that cancel out, texts that spell numbers."""
    rows = [
        ["'north", "'bolt", "400", '=SUMIFS([.C1:.C4];[.A1:.A4];"north";[.B1:.B4];"bolt")', "'5"],
        ["'south", "'bolt", "150", '=COUNTIFS([.A1:.A4];"north";[.C1:.C4];">100")', "=[.E1]+1"],
        ["'north", "'nut", "1000", '=AVERAGEIF([.A1:.A4];"north";[.C1:.C4])', "=0.1+0.2-0.3"],
        ["'North", "'bolt", "60", '=SUMIF([.B1:.B4];"b*";[.C1:.C4])', "=0.1+0.2=0.3"],
        ["'", "=ISEVEN([.C1])", "=CEILING([.C2];40)", "=ROWS([.A1:.A4])", "=DATE(2026;11;30)"],
        ["'", "=COM.MICROSOFT.IFS([.C1]>500;1;[.C1]>100;2)", "=COM.MICROSOFT.SWITCH([.B3];\"nut\";7;8)", "=MEDIAN([.C1:.C4])", "=SQRT([.C1])"],
        ["{=[.C1:.C3]*2}", "=SUM([.A7:.A9])", '=IF([.C4]>1;"";1)', "=[.C7]&\"x\"", "=1/3"],
        ["", "=[.A8]+1"],
        ["", "=[.A9]+1"],
    ]
    told = 'table:use-wildcards="true" table:use-regular-expressions="false" table:case-sensitive="false"'
    return workbook(sheet("Sink", rows), settings=f"<table:calculation-settings {told}/>")


def settings() -> str:
    """A circle that iterations resolve, precision as shown, criteria that meet a part of a cell."""
    rows = [["2:=10/3", "=[.A1]*3", "'north"], ["=[.A3]/2+1", "", "'northern"], ["=[.A2]", "", '=COUNTIF([.C1:.C2];"north")']]
    told = (
        '<table:calculation-settings table:precision-as-shown="true" table:search-criteria-must-apply-to-whole-cell="false"'
        ' table:use-regular-expressions="false"><table:iteration table:status="enable" table:steps="100" table:maximum-difference="0.000001"/>'
        "</table:calculation-settings>"
    )
    return workbook(sheet("Settings", rows), settings=told)


def data() -> str:
    """A longer list, and sums of it on a sheet of its own."""
    regions = ("north", "south", "east")
    rows = [[f"'{regions[at % 3]}", str(at * 7 % 101), f"=[.B{at}]*1.07"] for at in range(1, 121)]
    by_region = "=SUMIF([$List.A1:.A120];[.A{}];[$List.C1:.C120])"
    by_both = '=SUMIFS([$List.B1:.B120];[$List.A1:.A120];[.A{}];[$List.B1:.B120];">50")'
    sums = [[f"'{region}", by_region.format(at), by_both.format(at)] for at, region in enumerate(regions, 1)]
    return workbook(sheet("Sums", sums), sheet("List", rows))


def cover() -> str:
    """A sheet with a title first, which reads nothing."""
    return workbook(sheet("Cover", [["'Plan of 2027"]]), sheet("Plan", [["5", "=[.A1]*[$Rates.A1]"]]), sheet("Rates", [["1.5"]]))


def loans() -> str:
    """PMT, FV and PV: with all parameters, without interest, with a count of periods in a cell and in the formula."""
    formulas = (
        *("PMT([.B1]/12;[.B2];[.B3])", "PMT([.B1]/12;60;[.B3];-500;1)", "PMT(0;[.B2];[.B3])", "PMT(0.05;10;1000;0;0)", "PMT([.B1];[.B2]/12;[.B3];100)"),
        *("FV([.B1]/12;[.B2];-100)", "FV(0.03;10;-100;-1000;1)", "FV(0;12;-50;10)", "FV([.B1];1;-100)", "PV([.B1]/12;[.B2];-370.59)"),
        *("PV(0.04;20;-250;1000;1)", "PV(0;12;-50;10)", "ROUND(PMT([.B1]/12;[.B2];[.B3]);2)*[.B2]", "PMT(-0.01;12;1000)"),
    )
    inputs = [["'rate", "0.0425"], ["'months", "60"], ["'loan", "20000"]]
    return workbook(sheet("Loans", [*inputs, *([f"'{at}", f"={text}"] for at, text in enumerate(formulas, 1))]))


WORKBOOKS = {made.__name__: made for made in (tariff, recipe, loan, break_even, sink, settings, data, cover, loans)}

RELATIONS = '<?xml version="1.0"?><Relationships xmlns="http://schemas.openxmlformats.org/package/2006/relationships">{}</Relationships>'
OFFICE = "http://schemas.openxmlformats.org/officeDocument/2006/relationships"
MAIN = "http://schemas.openxmlformats.org/spreadsheetml/2006/main"
TYPES = "application/vnd.openxmlformats-officedocument.spreadsheetml"
EXCEL_CELLS = """
<row r="1"><c r="A1"><v>250</v></c><c r="D1"><f>A4</f><v>92</v></c><c r="E1"><v>0.32</v></c><c r="F1"><v>0.28</v></c></row>
<row r="2"><c r="A2"><v>0.32</v></c><c r="D2"><v>250</v></c><c r="E2"><f t="dataTable" ref="E2:F3" dt2D="1" dtr="1" r1="A2" r2="A1"/><v>92</v></c>
<c r="F2"><v>82</v></c></row>
<row r="3"><c r="A3"><v>12</v></c><c r="D3"><v>400</v></c><c r="E3"><v>140</v></c><c r="F3"><v>124</v></c></row>
<row r="4"><c r="A4"><f>A1*A2+A3</f><v>92</v></c></row>
<row r="6"><c r="E6"><f>A4*2</f><v>184</v></c></row>
<row r="7"><c r="D7"><v>100</v></c><c r="E7"><f t="dataTable" ref="E7:E8" dt2D="0" dtr="0" r1="A1"/><v>88</v></c></row>
<row r="8"><c r="D8"><v>300</v></c><c r="E8"><v>216</v></c></row>
"""
"""The bill of 250 kWh at 0.32 and a fee of 12; `{=TABLE(A2;A1)}` in E2:F3, and `{=TABLE(;A1)}` in E7:E8 for twice the bill."""


def excel() -> dict[str, str]:
    """The parts of a workbook with Excel's data tables of one input and of two."""
    overrides = (("/xl/workbook.xml", "sheet.main"), ("/xl/worksheets/sheet1.xml", "worksheet"))
    parts = "".join(f'<Override PartName="{name}" ContentType="{TYPES}.{kind}+xml"/>' for name, kind in overrides)
    return {
        "[Content_Types].xml": '<?xml version="1.0"?><Types xmlns="http://schemas.openxmlformats.org/package/2006/content-types">'
        f'<Default Extension="rels" ContentType="application/vnd.openxmlformats-package.relationships+xml"/>{parts}</Types>',
        "_rels/.rels": RELATIONS.format(f'<Relationship Id="r1" Type="{OFFICE}/officeDocument" Target="xl/workbook.xml"/>'),
        "xl/workbook.xml": f'<?xml version="1.0"?><workbook xmlns="{MAIN}" xmlns:r="{OFFICE}"><sheets>'
        '<sheet name="Tables" sheetId="1" r:id="r1"/></sheets></workbook>',
        "xl/_rels/workbook.xml.rels": RELATIONS.format(f'<Relationship Id="r1" Type="{OFFICE}/worksheet" Target="worksheets/sheet1.xml"/>'),
        "xl/worksheets/sheet1.xml": f'<?xml version="1.0"?><worksheet xmlns="{MAIN}"><sheetData>{EXCEL_CELLS}</sheetData></worksheet>',
    }
