"""The functions that whatif has, as in docs/FUNCTIONS.md, and what to write for others."""

import re
from difflib import get_close_matches

FUNCTIONS = frozenset(
    "ABS AND AVERAGE CHOOSE CONCATENATE COUNT COUNTA COUNTIF EXACT FALSE FIND HLOOKUP IF IFERROR IFNA INDEX INT ISBLANK ISERR ISERROR ISLOGICAL"
    " ISNA ISNONTEXT ISNUMBER ISTEXT LEFT LEN MATCH MAX MID MIN MOD MULTIPLE.OPERATIONS NA NOT OR POWER PRODUCT QUOTIENT REPT RIGHT ROUND"
    " ROUNDDOWN ROUNDUP SIGN SUM SUMIF SUMPRODUCT TRUE TRUNC VALUE VLOOKUP".split()
)

IN_FROM = frozenset(
    "AVERAGEIF CEILING CONCAT COUNTBLANK COUNTIFS DATE EXP FLOOR FV IFS INDIRECT IPMT ISEVEN LARGE LN MAXIFS MEDIAN MROUND NPER NPV OFFSET PI PMT PV"
    " RAND RANK ROWS SIN SMALL SQRT STDEV SUBSTITUTE SUMIFS SUMSQ SWITCH TEXT TEXTJOIN TODAY TRIM UPPER XLOOKUP XOR".split()
)
"""The functions for which docs/FROM.md says what to write instead."""

ENGLISH = {
    "SUMME": "SUM",
    "WENN": "IF",
    "MITTELWERT": "AVERAGE",
    "RUNDEN": "ROUND",
    "ANZAHL": "COUNT",
    "SUMMEWENN": "SUMIF",
    "SVERWEIS": "VLOOKUP",
    "UND": "AND",
    "ODER": "OR",
    "SOMME": "SUM",
    "SI": "IF",
    "MOYENNE": "AVERAGE",
    "ARRONDI": "ROUND",
    "RECHERCHEV": "VLOOKUP",
    "SUMA": "SUM",
    "PROMEDIO": "AVERAGE",
    "REDONDEAR": "ROUND",
    "BUSCARV": "VLOOKUP",
    "SOMMA": "SUM",
    "SE": "IF",
    "MEDIA": "AVERAGE",
    "ARROTONDA": "ROUND",
}
"""The commonest functions by their German, French, Spanish and Italian names."""


DATES = frozenset(
    "DATE DATEDIF DATEVALUE DAY DAYS DAYS360 EASTERSUNDAY EDATE EOMONTH HOUR ISOWEEKNUM MINUTE MONTH NETWORKDAYS NOW SECOND TIME TIMEVALUE"
    " TODAY WEEKDAY WEEKNUM WORKDAY YEAR YEARFRAC".split()
)
ELSEWHERE = frozenset(
    "ADDRESS AGGREGATE AVERAGEA AVERAGEIFS CEILING.MATH CELL CHAR CHOOSECOLS CLEAN CODE COLUMN COLUMNS COMBIN CONVERT CORREL COS COUNTUNIQUE CUMIPMT"
    " CUMPRINC DAVERAGE DB DCOUNT DDB DGET DMAX DMIN DOLLAR DSUM EFFECT EVEN FACT FILTER FIXED FLOOR.MATH FORECAST FREQUENCY GCD GEOMEAN GROWTH HARMEAN"
    " HSTACK HYPERLINK INTERCEPT IRR ISFORMULA ISODD ISPMT ISREF LAMBDA LCM LET LINEST LOG LOG10 LOOKUP LOWER MAP MAXA MINA MINIFS MIRR MODE N NOMINAL"
    " NORMDIST NORMINV NUMBERVALUE ODD PERCENTILE PERCENTRANK PERMUT PPMT PROPER QUARTILE QUERY RANDBETWEEN RATE REDUCE REGEX REGEXMATCH REPLACE ROMAN"
    " ROW RRI RSQ SEARCH SEQUENCE SHEET SLN SLOPE SORT SORTBY SPLIT SUBTOTAL SYD T TAN TAKE TEXTAFTER TEXTBEFORE TEXTSPLIT TRANSPOSE TREND TYPE UNICHAR"
    " UNIQUE VAR VDB VSTACK XIRR XMATCH XNPV YIELD ZTEST".split()
)
"""Other functions of spreadsheets: none is one of whatif's in other letters."""

PREFIX = re.compile(r"(?:COM\.MICROSOFT|ORG\.(?:GNUMERIC|OPENOFFICE|LIBREOFFICE)|_XLFN|_XLWS)\.")


def instead_of(name: str) -> str:
    """What to write for a function that isn't there."""
    plain = PREFIX.sub("", name.upper())
    if plain in DATES:
        return f"there are no dates, and no {plain}: count days or months in whole numbers"
    if plain == "TABLE":
        return "Excel's TABLE(R;C) is MULTIPLE.OPERATIONS(F;R;X;C;Y) here: docs/MANUAL.md, \"What if\""
    if plain in FUNCTIONS:
        return f"write {plain} for {name}"
    if plain in IN_FROM:
        return f"{plain} isn't there: docs/FROM.md has what to write instead"
    if plain in ENGLISH:
        return f"functions have their English names: write {ENGLISH[plain]} for {plain}"
    near = [] if plain in ELSEWHERE else get_close_matches(plain, FUNCTIONS, 1)
    return f"{plain} isn't there: is {near[0]} meant?" if near else f"{plain} isn't there: docs/FUNCTIONS.md has those that are"
