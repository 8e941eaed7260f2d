"""Rows that show what xcpread reads of A2L files (ASAM MCD-2 MC), and what it makes of the bytes
and the ticks of samples: each row is a call of the program, and what is wanted was worked out by
hand. tests/values counts them: check(tell, reader, recorder, room) calls tell(name, holds, said) for
each row; room is a folder for its files.

In texts of A2L files each character is a byte."""

import csv
import io
import re
import struct
import subprocess


def in_module(blocks):
    """A text with these blocks in its MODULE, from line 2 on."""
    return f'/begin PROJECT p "" /begin MODULE m ""\n{blocks}\n/end MODULE /end PROJECT'


def measurement(data_type, options="", method="NO_COMPU_METHOD", name="a", address=0):
    return (f'/begin MEASUREMENT {name} "" {data_type} {method} 0 0 0 1 ECU_ADDRESS {address} '
            f"{options} /end MEASUREMENT\n")


def method(words):
    return f'/begin COMPU_METHOD m "" {words} /end COMPU_METHOD\n'


# What is wanted of a row: a text is the fault; a dict has the heads of the columns, each with the
# value of the one sample. If a row says nothing of bytes, byte i of the sample is 100 + i, but for
# 1.5 as a FLOAT32_IEEE at 7, MSB_LAST.
NONE = "no such measurement in the recording"
BYTES = bytes(range(100, 107)) + bytes([0x00, 0x00, 0xC0, 0x3F]) + bytes(range(111, 140))

# What a file is that is no text.
EMPTY = "bad a2l: the file is empty"
UTF_16 = "bad a2l: the file is in UTF-16: write it in UTF-8 or ISO 8859-1"
ZERO = "bad a2l: the file is no text: it has a byte 0"

# A whole text.
TEXTS = [
    # nothing; blanks; the mark of UTF-8
    ("an empty file", "", EMPTY),
    ("nothing but the mark of UTF-16", "\xff\xfe", UTF_16),
    ("a text in UTF-16, MSB last", "\xff\xfe/\0b\0e\0g\0i\0n\0", UTF_16),
    ("a text in UTF-16, MSB first", "\xfe\xff\0/\0b\0e\0g\0i\0n", UTF_16),
    ("a text in UTF-16 without its mark", "/\0b\0e\0g\0i\0n\0", ZERO),
    ("a program", "\x7fELF\x02\x01\x01\0\0\0\0\0\0\0\0\0\x03\0>\0", ZERO),
    ("a byte 0 at the end of a whole text", in_module(measurement("UBYTE")) + "\0", ZERO),
    ("a letter of ISO 8859-1 in front", "\xff " + in_module(measurement("UBYTE")), {"a": "100"}),
    ("each kind of blank", " \t\r\n\x0b\x0c", NONE),
    ("where blanks end", "/begin A \t\r\n\x0b\x0c", "line 2, column 3: expected /end A"),
    ("the mark of UTF-8 alone", "\xef\xbb\xbf", NONE),
    ("the mark of UTF-8 has columns", '\xef\xbb\xbf"',
     "line 1, column 4: the text has no closing quote"),
    ("where a word behind the mark ends", '\xef\xbb\xbfA"',
     "line 1, column 5: the text has no closing quote"),
    ("a text behind the mark", "\xef\xbb\xbf" + in_module(measurement("UBYTE")), {"a": "100"}),
    # the three words with a slash; other words with one
    ("/begin and /end", "/begin /end", "line 1, column 8: expected the name of a block"),
    ("/include on a line of its own", "\n/include", "line 2, column 1: /include is not supported"),
    ("where words with a slash end", "/begin A\n/Begin /begins /",
     "line 2, column 17: expected /end A"),
    # comments
    ("where comments end", "/begin A\nabc/*c*/d a//b c\ne/**/f/*/*/g/***/",
     "line 3, column 18: expected /end A"),
    ("a comment ends /begin", "/begin//x", "line 1, column 10: expected the name of a block"),
    ("a comment within a line hides other marks", '// "/*', NONE),
    ("where a comment within a line ends", '/begin A\n// "/*', "line 2, column 7: expected /end A"),
    ("where a comment with other marks in it ends", '/begin A\n/* // " */A',
     "line 2, column 12: expected /end A"),
    ("where a word with */ in it ends", "/begin A\na/b*/c", "line 2, column 7: expected /end A"),
    # texts
    ("where texts end", '/begin A\n"" "/* // */" "a""b" "a\\"b" "\\\\"',
     "line 2, column 33: expected /end A"),
    ("where a text of two lines ends", '/begin A\nA"b\nc"D', "line 3, column 4: expected /end A"),
    ("where a text in ISO 8859-1 ends", '/begin A\n\xe4"\xe4"',
     "line 2, column 5: expected /end A"),
    # what isn't closed
    ("a text without an end", 'A "b', "line 1, column 3: the text has no closing quote"),
    ("a doubled quote is no end", '\n"a""', "line 2, column 1: the text has no closing quote"),
    ("a quote behind a backslash is no end", '"a\\"',
     "line 1, column 1: the text has no closing quote"),
    ("a text that ends in a backslash", '"a\\',
     "line 1, column 1: the text has no closing quote"),
    ("a comment in a comment is none", "A /* /* x", "line 1, column 3: the comment has no end"),
    ("a comment doesn't end in its own mark", " /*/", "line 1, column 2: the comment has no end"),
]

# What stands in a MODULE, from line 2 on.
MODULES = [
    ("no block", "", NONE),
    ("an address", measurement("UBYTE", address="0x1f"), {"a": "131"}),
    ("an address of 0", measurement("UBYTE", address="0"), {"a": "100"}),
    ("options in any order, the first of a kind counts, blocks in it are passed over",
     '/begin MEASUREMENT a "" FLOAT32_IEEE NO_COMPU_METHOD 0 0.5 -1e3 0x10 DISCRETE FORMAT "%1" '
     'DISPLAY_IDENTIFIER PHYS_UNIT SYMBOL_LINK ECU_ADDRESS 9 PHYS_UNIT "m/s" ECU_ADDRESS 7 '
     'PHYS_UNIT "x" ECU_ADDRESS 8 /begin ANNOTATION ECU_ADDRESS 3 /end ANNOTATION '
     "MATRIX_DIM 1 1 1 ARRAY_SIZE 1 ECU_ADDRESS_EXTENSION 0 /end MEASUREMENT", {"a [m/s]": "1.5"}),
    # no long identifier, and no limits, refuse a measurement
    ("a long identifier of more than 1,024 bytes",
     f'/begin MEASUREMENT a "{"i" * 1025}" UBYTE NO_COMPU_METHOD 0 0 0 1 ECU_ADDRESS 1 '
     "/end MEASUREMENT", {"a": "101"}),
    ("limits that say nothing, 0 0 and one above the other",
     '/begin MEASUREMENT a "" UBYTE NO_COMPU_METHOD 0 0 0 0 ECU_ADDRESS 1 /end MEASUREMENT '
     '/begin MEASUREMENT b "" UBYTE NO_COMPU_METHOD 0 0 1 -1 ECU_ADDRESS 2 /end MEASUREMENT',
     {"a": "101", "b": "102"}),
    # left out
    ("a virtual measurement",
     '/begin MEASUREMENT a "" UBYTE NO_COMPU_METHOD 0 0 0 1 /end MEASUREMENT', NONE),
    ("an address that is extended", measurement("UBYTE", "ECU_ADDRESS_EXTENSION -1"), NONE),
    ("an array of no element", measurement("UBYTE", "ARRAY_SIZE 0"), NONE),
    ("a dimension of 0 among others", measurement("UBYTE", "MATRIX_DIM 2 0 2"), NONE),
    ("an array of 65,537 elements", measurement("UBYTE", "MATRIX_DIM 65537"), NONE),
    ("dimensions whose product has more than 64 bits",
     measurement("UBYTE", "MATRIX_DIM 4294967296 4294967296 4294967296"), NONE),
    ("columns of three dimensions",
     measurement("UBYTE", "MATRIX_DIM 2 2 2 LAYOUT COLUMN_DIR"), NONE),
    # arrays, whose elements stand one behind another
    ("ARRAY_SIZE", measurement("UBYTE", 'ARRAY_SIZE 2 PHYS_UNIT "V"'),
     {"a[0] [V]": "100", "a[1] [V]": "101"}),
    ("MATRIX_DIM of one dimension, with two of 1",
     measurement("UBYTE", "MATRIX_DIM 4 1 1", address=1),
     {"a[0]": "101", "a[1]": "102", "a[2]": "103", "a[3]": "104"}),
    ("MATRIX_DIM counts, and not ARRAY_SIZE", measurement("UBYTE", "ARRAY_SIZE 4 MATRIX_DIM 2"),
     {"a[0]": "100", "a[1]": "101"}),
    ("two dimensions: the first runs fastest",
     measurement("UBYTE", "LAYOUT ROW_DIR MATRIX_DIM 3 2"),
     {"a[0][0]": "100", "a[1][0]": "101", "a[2][0]": "102",
      "a[0][1]": "103", "a[1][1]": "104", "a[2][1]": "105"}),
    ("column by column: the second does",
     measurement("UBYTE", "MATRIX_DIM 3 2 1 LAYOUT COLUMN_DIR"),
     {"a[0][0]": "100", "a[0][1]": "101", "a[1][0]": "102",
      "a[1][1]": "103", "a[2][0]": "104", "a[2][1]": "105"}),
    ("a column alone", measurement("UBYTE", "MATRIX_DIM 2 LAYOUT COLUMN_DIR"),
     {"a[0]": "100", "a[1]": "101"}),
    ("three dimensions", measurement("UBYTE", "MATRIX_DIM 2 1 2"),
     {"a[0][0][0]": "100", "a[1][0][0]": "101", "a[0][0][1]": "102", "a[1][0][1]": "103"}),
    ("a first dimension of 1", '/begin MEASUREMENT a "" UBYTE NO_COMPU_METHOD 0 0 0 1 '
     "MATRIX_DIM 1 3 ECU_ADDRESS 1 /end MEASUREMENT",
     {"a[0][0]": "101", "a[0][1]": "102", "a[0][2]": "103"}),
    ("elements of two bytes, MSB first", measurement(
        "UWORD", "MATRIX_DIM 2 BYTE_ORDER MSB_FIRST", address=11),
     {"a[0]": "28528", "a[1]": "29042"}),
    ("the elements that the entry has", measurement("UWORD", "ARRAY_SIZE 4", address=35),
     {"a[0]": "34951", "a[1]": "35465"}),
    ("the first ones of 65,536", measurement("UBYTE", "MATRIX_DIM 256 256"),
     {f"a[{i}][0]": str(BYTES[i]) for i in range(40)}),
    ("a layout that isn't one",
     '/begin MEASUREMENT a "" UBYTE m 0 0 0 1 LAYOUT ROWS /end MEASUREMENT',
     "line 2, column 48: expected a layout, ROW_DIR or COLUMN_DIR"),
    # names, types, numbers, masks
    ("a method behind it; the first of its name counts",
     measurement("UBYTE", method="m", address=1) + method('IDENTICAL "" "V"')
     + method('IDENTICAL "" "A"'), {"a [V]": "101"}),
    ("a method that isn't there", '/begin MEASUREMENT a "" UBYTE m 0 0 0 1 /end MEASUREMENT',
     "line 2, column 31: no COMPU_METHOD has this name"),
    ("a data type that isn't one", '/begin MEASUREMENT a "" BYTE /end MEASUREMENT',
     "line 2, column 25: expected a data type, such as UBYTE"),
    ("a name in quotes", '/begin MEASUREMENT "a" "" /end MEASUREMENT',
     "line 2, column 20: expected a name"),
    ("a text without quotes", "/begin MEASUREMENT a b /end MEASUREMENT",
     "line 2, column 22: expected a text in quotes"),
    ("no number", '/begin MEASUREMENT a "" UBYTE m 0 x 0 1 /end MEASUREMENT',
     "line 2, column 35: expected a number"),
    ("a mask of no bit", '/begin MEASUREMENT a "" UBYTE m 0 0 0 1 BIT_MASK 0 /end MEASUREMENT',
     "line 2, column 50: expected a bit mask other than 0"),
    ("an old byte order",
     '/begin MEASUREMENT a "" UBYTE m 0 0 0 1 BYTE_ORDER LITTLE_ENDIAN /end MEASUREMENT',
     "line 2, column 52: LITTLE_ENDIAN and BIG_ENDIAN have two meanings: "
     "write MSB_LAST or MSB_FIRST"),
    ("the other old byte order, on another line",
     '/begin MEASUREMENT a "" UBYTE m 0 0 0 1\n  BYTE_ORDER BIG_ENDIAN /end MEASUREMENT',
     "line 3, column 14: LITTLE_ENDIAN and BIG_ENDIAN have two meanings: "
     "write MSB_LAST or MSB_FIRST"),
    ("an address of 33 bits",
     '/begin MEASUREMENT a "" UBYTE m 0 0 0 1 ECU_ADDRESS 0x100000000 /end MEASUREMENT',
     "line 2, column 53: expected an address of 32 bits"),
    ("a keyword without its second word",
     '/begin MEASUREMENT a "" UBYTE m 0 0 0 1 MAX_REFRESH 1 /end MEASUREMENT',
     "line 2, column 55: expected another word that belongs to the keyword before"),
    # methods and tables
    ("LINEAR with COEFFS",
     '/begin COMPU_METHOD m "" LINEAR "" "" COEFFS 0 0 0 0 0 0 /end COMPU_METHOD',
     "line 2, column 58: expected COEFFS_LINEAR, which LINEAR needs"),
    ("RAT_FUNC alone", '/begin COMPU_METHOD m "" RAT_FUNC "" "" /end COMPU_METHOD',
     "line 2, column 41: expected COEFFS, which RAT_FUNC needs"),
    ("a table that isn't there",
     '/begin COMPU_METHOD m "" TAB_VERB "" "" COMPU_TAB_REF t /end COMPU_METHOD',
     "line 2, column 55: no COMPU_VTAB and no COMPU_VTAB_RANGE has this name"),
    ("a table without its last text", '/begin COMPU_VTAB t "" TAB_VERB 2 0 "x" 1 /end COMPU_VTAB',
     "line 2, column 43: expected a text in quotes"),
    ("a table of ranges alone",
     '/begin COMPU_VTAB_RANGE t "" 1 0 9 "x" DEFAULT_VALUE "y" /end COMPU_VTAB_RANGE', NONE),
    # IF_DATA
    ("ticks that are none",
     "/begin IF_DATA XCP /begin DAQ DYNAMIC /begin TIMESTAMP_SUPPORTED 0 SIZE_WORD UNIT_1S "
     "/end TIMESTAMP_SUPPORTED /end DAQ /end IF_DATA",
     "line 2, column 66: expected a number of ticks from 1 to 65535"),
    ("the unit of a timestamp, in no DAQ",
     "/begin IF_DATA XCP /begin TIMESTAMP_SUPPORTED 1 SIZE_WORD UNIT_2S "
     "/end TIMESTAMP_SUPPORTED /end IF_DATA",
     "line 2, column 59: expected the unit of a timestamp, such as UNIT_1US"),
    ("words of IF_DATA that aren't known",
     "/begin IF_DATA XCP /begin PROTOCOL_LAYER BYTE_ORDER_OF_MINE /begin X /end X "
     "/end PROTOCOL_LAYER /begin DAQ IDENTIFICATION_FIELD_TYPE_OF_MINE /begin X 1 /end X "
     "/end DAQ /end IF_DATA /begin IF_DATA XCPplus /begin DAQ /begin TIMESTAMP_SUPPORTED 0 "
     "/end TIMESTAMP_SUPPORTED /end DAQ /end IF_DATA " + measurement("UBYTE"), {"a": "100"}),
    ("ticks behind the first that are read",
     "/begin IF_DATA XCP /begin DAQ /begin TIMESTAMP_SUPPORTED 1 SIZE_WORD UNIT_1S "
     "/end TIMESTAMP_SUPPORTED /begin TIMESTAMP_SUPPORTED 0 /end TIMESTAMP_SUPPORTED /end DAQ "
     "/begin DAQ /begin TIMESTAMP_SUPPORTED X /end TIMESTAMP_SUPPORTED /end DAQ "
     "/end IF_DATA " + measurement("UBYTE"), {"a": "100"}),
    # blocks
    ("a block that ends by another name", "/begin A /begin B /end A",
     "line 2, column 24: expected /end B"),
    ("a block without an end", "/begin A", "line 3, column 6: expected /end A"),
    ("a block with its name in quotes", '/begin "A"',
     "line 2, column 8: expected the name of a block"),
    ("another file", '/include "b.a2l"', "line 2, column 1: /include is not supported"),
    ("another file in A2ML is passed over, in quotes or not",
     '/begin A2ML /include "b.aml" block "IF_DATA" struct { /include c.aml /begin X /include d '
     "/end X }; /end A2ML " + measurement("UBYTE"), {"a": "100"}),
    ("another file behind A2ML", "/begin A2ML /include a /end A2ML /include b",
     "line 2, column 34: /include is not supported"),
    ("another file in a block named A2ML in another one",
     "/begin B /begin A2ML /include a /end A2ML /end B",
     "line 2, column 22: /include is not supported"),
    ("A2ML without its end", "/begin A2ML /include a", "line 3, column 6: expected /end A2ML"),
    ("a comment without an end, in a block", "/begin A /* x",
     "line 2, column 10: the comment has no end"),
    ("a text without an end, in a MODULE", '"x', "line 2, column 1: the text has no closing quote"),
    ("an end too many", "/end MODULE /end PROJECT /end X",
     "line 2, column 31: no block is open that could end here"),
    # words
    ("words with a slash in front",
     measurement("UBYTE", name="/Begin", address=1)
     + measurement("UBYTE", name="/begins", address=2) + measurement("UBYTE", name="/", address=3),
     {"/Begin": "101", "/begins": "102", "/": "103"}),
    ("a comment ends a word; one within a line ends with it; none is nested",
     '/begin/*c*/MEASUREMENT abc/*c*/"" UBYTE//b c\nNO_COMPU_METHOD/**/0/*/*/0/***/0 1 '
     "ECU_ADDRESS 1 /end MEASUREMENT", {"abc": "101"}),
    ("a word behind a comment with other marks in it",
     measurement("UBYTE", name='/* // " */A'), {"A": "100"}),
    ("a word with a slash and */ in it", measurement("UBYTE", name="a/b*/c"), {"a/b*/c": "100"}),
    ("a text of two lines next to words",
     '/begin MEASUREMENT A"b\nc"UBYTE NO_COMPU_METHOD 0 0 0 1 ECU_ADDRESS 1 /end MEASUREMENT',
     {"A": "101"}),
    ("where a word next to a text stands", '/begin MEASUREMENT A"b\nc"D /end MEASUREMENT',
     "line 3, column 3: expected a data type, such as UBYTE"),
    ("a word and a text in ISO 8859-1",
     '/begin MEASUREMENT \xe4"\xe4"UBYTE NO_COMPU_METHOD 0 0 0 1 ECU_ADDRESS 1 /end MEASUREMENT',
     {"ä": "101"}),
    ("a word with a backslash at its end", measurement("UBYTE", name="\\n\\t\\x\\"),
     {"\n\t\\x\\": "100"}),
]

# Of seven, one is shown: the others lie partly or wholly behind the 40 bytes of the list's entry,
# or in another memory, are computed, or are an instance of a type.
HIDDEN = (measurement("UBYTE", name="shown", address=1)
          + measurement("UBYTE", "ECU_ADDRESS_EXTENSION 1", name="extended")
          + measurement("UWORD", name="split", address=39)
          + '/begin INSTANCE pump "A pump" t 0x10 /end INSTANCE\n'
          + measurement("UBYTE", name="far", address="0x70000000")
          + measurement("UBYTE", "ARRAY_SIZE 2", name="array", address=40)
          + '/begin MEASUREMENT computed "" UBYTE NO_COMPU_METHOD 0 0 0 1 /begin VIRTUAL shown '
          "/end VIRTUAL /end MEASUREMENT\n")
HIDDEN_LINE = "xcpread: not shown of the a2l: 6 of 7 measurements and instances\n"
HIDDEN_NAMES = ["split", "far", "extended", "pump", "computed", "array"]

# A mask, and what is shown under it of 64 bits that are all set: itself if it is odd.
INTEGER = "expected a whole number that is not negative"
MASKS = [
    ("0", "expected a bit mask other than 0"),
    ("0017", "17"),
    ("0x1aF", "431"),
    ("0XFF", "255"),
    ("18446744073709551615", "18446744073709551615"),
    ("18446744073709551616", INTEGER),
    ("0xffffffffffffffff", "18446744073709551615"),
    ("0x10000000000000000", INTEGER),
    ("0x", INTEGER),
    ("+1", INTEGER),
    ("-1", INTEGER),
    ("12a", INTEGER),
    ("0x1g", INTEGER),
]

# A factor, and what is shown of 1: itself.
NUMBER = "expected a number"
FACTORS = [
    ("1", "1.0"),
    ("-2.5e-1", "-0.25"),
    ("+.5", "0.5"),
    ("0x10", "16.0"),
    ("1e308", "1e308"),
    ("1e309", NUMBER),
    ("nan", NUMBER),
    ("inf", NUMBER),
    ("-0x10", NUMBER),
    ("1,5", NUMBER),
]

# What stands between quotes, and what it says.
QUOTED = [
    ("a \xc3\xa4", "a ä"),
    ('a""b\\"c\\\\d', 'a"b"c\\d'),
    ("\\n\\t\\x", "\n\t\\x"),
    ("\xb0C", "°C"),
    ('\xff""', 'ÿ"'),
    ("/* // */", "/* // */"),
    ('a""b', 'a"b'),
    ('a\\"b', 'a"b'),
    ("\\\\", "\\"),
    ("b\nc", "b\nc"),
]

# A data type, a byte order, a mask, bytes, and what is shown of them.
LAST, FIRST = "MSB_LAST", "MSB_FIRST"
RAW = [
    ("UBYTE", LAST, None, "fe", "254"),
    ("SBYTE", LAST, None, "fe", "-2"),
    ("UWORD", LAST, None, "3412", "4660"),
    ("UWORD", FIRST, None, "3412", "13330"),
    ("SWORD", FIRST, None, "fffe", "-2"),
    ("SWORD", LAST, None, "0080", "-32768"),
    ("ULONG", LAST, None, "00000080", "2147483648"),
    ("SLONG", FIRST, None, "80000000", "-2147483648"),
    ("SLONG", LAST, None, "ffffff7f", "2147483647"),
    ("A_UINT64", LAST, None, "ffffffffffffffff", "18446744073709551615"),
    ("A_UINT64", LAST, None, "0100000000002000", "9007199254740993"),
    ("A_INT64", LAST, None, "ffffffffffffffff", "-1"),
    ("A_INT64", FIRST, None, "8000000000000000", "-9223372036854775808"),
    # sign, 5 bits of exponent, whose bias is 15, and 10 of fraction: 65504 is (2 - 2^-10) 2^15, the
    # greatest one, 2^-24 the least one above 0, and 3ff the greatest one without a hidden bit
    ("FLOAT16_IEEE", LAST, None, "003c", "1.0"),
    ("FLOAT16_IEEE", FIRST, None, "3c00", "1.0"),
    ("FLOAT16_IEEE", FIRST, None, "c000", "-2.0"),
    ("FLOAT16_IEEE", FIRST, None, "3555", "0.333251953125"),
    ("FLOAT16_IEEE", FIRST, None, "7bff", "65504.0"),
    ("FLOAT16_IEEE", FIRST, None, "0001", "5.960464477539063e-8"),
    ("FLOAT16_IEEE", FIRST, None, "83ff", "-0.00006097555160522461"),
    ("FLOAT16_IEEE", FIRST, None, "0400", "0.00006103515625"),
    ("FLOAT16_IEEE", FIRST, None, "0000", "0.0"),
    ("FLOAT16_IEEE", FIRST, None, "8000", "-0.0"),
    ("FLOAT16_IEEE", FIRST, None, "7c00", "inf"),
    ("FLOAT16_IEEE", FIRST, None, "fc00", "-inf"),
    ("FLOAT16_IEEE", FIRST, None, "7e00", "NaN"),
    ("FLOAT16_IEEE", FIRST, None, "fc01", "NaN"),
    ("FLOAT16_IEEE", FIRST, "1", "3c00", "1.0"),
    ("FLOAT32_IEEE", LAST, None, "0000c03f", "1.5"),
    ("FLOAT32_IEEE", FIRST, None, "3dcccccd", "0.1"),
    ("FLOAT32_IEEE", LAST, None, "0100c07f", "NaN"),
    ("FLOAT32_IEEE", LAST, "1", "0000c03f", "1.5"),
    ("FLOAT64_IEEE", FIRST, None, "c059000000000000", "-100.0"),
    ("FLOAT64_IEEE", LAST, None, "000000000000f0ff", "-inf"),
    ("UBYTE", LAST, "0xf0", "a5", "10"),
    ("UBYTE", LAST, "0x5a", "a5", "0"),
    ("SBYTE", LAST, "0x80", "80", "1"),
    ("SWORD", FIRST, "0x0f00", "fa00", "10"),
    ("ULONG", LAST, "0xffffffff00000000", "ffffffff", "0"),
    ("A_UINT64", LAST, "0x8000000000000000", "ffffffffffffffff", "1"),
]

# A data type, a mask, what BIT_OPERATION says, bytes (MSB_LAST), and what is shown of them: the
# bits of the mask (B4 under F0 is B0), moved up and then down, and then the sign, from the highest
# bit of the mask, which was moved with them (B is -5, of four bits). Nothing else is moved.
OPERATIONS = [
    ("UBYTE", "0xF0", "RIGHT_SHIFT 4 SIGN_EXTEND", "b4", "-5"),
    ("UBYTE", "0xF0", "RIGHT_SHIFT 4 SIGN_EXTEND", "7f", "7"),
    ("UBYTE", "0xF0", "SIGN_EXTEND RIGHT_SHIFT 4", "b4", "-5"),
    ("UBYTE", "0xF0", "RIGHT_SHIFT 4", "b4", "11"),
    ("UBYTE", "0xF0", "SIGN_EXTEND", "b4", "-80"),
    ("UBYTE", "0xF0", "", "b4", "176"),
    ("UBYTE", "0xF0", "LEFT_SHIFT 0", "b4", "176"),
    ("UBYTE", "0xF0", None, "b4", "11"),
    ("UBYTE", None, "LEFT_SHIFT 4", "01", "16"),
    ("UBYTE", "0x01", "LEFT_SHIFT 4", "01", "16"),
    ("UBYTE", "0x01", None, "01", "1"),
    ("UBYTE", None, "LEFT_SHIFT 4", "ff", "4080"),
    ("UBYTE", None, "LEFT_SHIFT 4 SIGN_EXTEND", "ff", "-16"),
    ("UBYTE", "0x3c", "LEFT_SHIFT 4 RIGHT_SHIFT 6", "28", "10"),
    ("UBYTE", "0x3c", "LEFT_SHIFT 4 RIGHT_SHIFT 6 SIGN_EXTEND", "28", "-6"),
    ("UBYTE", "0x01", "SIGN_EXTEND", "01", "-1"),
    ("UBYTE", "0xF0", "RIGHT_SHIFT 8 SIGN_EXTEND", "b4", "0"),
    ("SBYTE", "0xF0", "RIGHT_SHIFT 4", "b4", "11"),
    ("SBYTE", None, "RIGHT_SHIFT 4", "b4", "-5"),
    ("SBYTE", None, "", "b4", "-76"),
    ("SBYTE", "0xffffffff", "SIGN_EXTEND", "b4", "-76"),
    ("UWORD", "0x0FF0", "RIGHT_SHIFT 4 SIGN_EXTEND", "507f", "-11"),
    ("UWORD", None, "SIGN_EXTEND", "feff", "-2"),
    ("ULONG", None, "SIGN_EXTEND", "00000080", "-2147483648"),
    ("A_UINT64", None, "SIGN_EXTEND", "ffffffffffffffff", "-1"),
    ("A_UINT64", "0x8000000000000000", "SIGN_EXTEND RIGHT_SHIFT 63", "ffffffffffffffff", "-1"),
    ("A_UINT64", None, "LEFT_SHIFT 63", "0300000000000000", "9223372036854775808"),
    ("A_UINT64", None, "LEFT_SHIFT 60 RIGHT_SHIFT 60", "fa00000000000000", "10"),
    ("FLOAT32_IEEE", "0xF0", "RIGHT_SHIFT 4 SIGN_EXTEND", "0000c03f", "1.5"),
    ("FLOAT64_IEEE", None, "LEFT_SHIFT 1", "000000000000f83f", "1.5"),
]

# Bits of a shift: what is no number of them.
SHIFT = "expected a shift by 0 to 63 bits"
SHIFTS = [("64", SHIFT), ("18446744073709551615", SHIFT), ("-1", INTEGER), ("x", INTEGER)]

# A method, a data type, bytes (MSB_LAST), and what is shown of them. Of a raw value n: LINEAR is
# n / 2 - 40, RATIONAL the x for which (2 x + 10) / 4 is n; of ranges that overlap the first counts.
LINEAR = 'LINEAR "" "" COEFFS_LINEAR 0.5 -40'
RATIONAL = 'RAT_FUNC "" "" COEFFS 0 2 10 0 0 4'
TEXT = 'TAB_VERB "" "" COMPU_TAB_REF texts'
TEXT_ELSE = 'TAB_VERB "" "" COMPU_TAB_REF texts_else'
RANGES = '3 0 0 "off" 1 5 "low" 3 9 "high, by far"'
TABLES = (f'/begin COMPU_VTAB_RANGE texts "" {RANGES} /end COMPU_VTAB_RANGE\n'
          f'/begin COMPU_VTAB_RANGE texts_else "" {RANGES} DEFAULT_VALUE "?" '
          "/end COMPU_VTAB_RANGE\n")
PHYSICAL = [
    ('FORM "" ""', "A_UINT64", bytes([255] * 8), "18446744073709551615"),
    (LINEAR, "UBYTE", bytes([100]), "10.0"),
    (LINEAR, "SBYTE", bytes([256 - 100]), "-90.0"),
    (LINEAR, "FLOAT32_IEEE", struct.pack("<f", 0.25), "-39.875"),
    (LINEAR, "FLOAT16_IEEE", bytes([0x00, 0x34]), "-39.875"),
    (RATIONAL, "UBYTE", bytes([3]), "1.0"),
    (RATIONAL, "FLOAT64_IEEE", struct.pack("<d", -2.5), "-10.0"),
    # of a FLOAT32_IEEE the shortest decimal, with any method that leaves it one: 0.1 has the bits
    # 3dcccccd, and is 0.100000001490116..
    ('IDENTICAL "" ""', "FLOAT32_IEEE", bytes.fromhex("cdcccc3d"), "0.1"),
    ('LINEAR "" "" COEFFS_LINEAR 1 0', "FLOAT32_IEEE", bytes.fromhex("cdcccc3d"), "0.1"),
    ('LINEAR "" "" COEFFS_LINEAR -2 0', "FLOAT32_IEEE", bytes.fromhex("cdcccc3d"), "-0.2"),
    ('RAT_FUNC "" "" COEFFS 0 1 0 0 0 1', "FLOAT32_IEEE", bytes.fromhex("cdcccc3d"), "0.1"),
    ('LINEAR "" "" COEFFS_LINEAR 1 0', "FLOAT32_IEEE", bytes.fromhex("0000c07f"), "NaN"),
    ('LINEAR "" "" COEFFS_LINEAR 1 0', "FLOAT32_IEEE", bytes.fromhex("000080ff"), "-inf"),
    # 16777216 and 1: no float of 32 bits has their sum
    ('LINEAR "" "" COEFFS_LINEAR 1 1', "FLOAT32_IEEE", bytes.fromhex("0000804b"), "16777217.0"),
    # a float of 64 bits is written as one: the same number is another one there
    ('LINEAR "" "" COEFFS_LINEAR 1 0', "FLOAT64_IEEE", bytes.fromhex("000000a09999b93f"),
     "0.10000000149011612"),
    (TEXT, "UBYTE", bytes([0]), "off"),
    (TEXT, "SBYTE", bytes([4]), "low"),
    (TEXT, "UBYTE", bytes([7]), "high, by far"),
    (TEXT, "UBYTE", bytes([10]), "10"),
    (TEXT, "FLOAT64_IEEE", struct.pack("<d", float("nan")), "NaN"),
    (TEXT_ELSE, "UBYTE", bytes([10]), "?"),
    (TEXT_ELSE, "FLOAT32_IEEE", struct.pack("<f", 0.5), "?"),
]

# The ticks of a timestamp, how long a tick is, and the time.
TIMES = [
    (1234, "1e-6", "0.001234"),
    (0, "7e-6", "0"),
    (0, "7e3", "0"),
    (1_000_000, "1e-6", "1"),
    (1_500_000, "1e-6", "1.5"),
    (10, "25e-3", "0.25"),
    (123_456_789, "1e-3", "123456.789"),
    (3, "2e2", "600"),
    (120, "1", "120"),
    (1, "1e-18", "0.000000000000000001"),
    # each way to say it
    (1, "0.001", "0.001"),
    (1, "1e-6", "0.000001"),
    (1, "12.5E-9", "0.0000000125"),
    (1, "100", "100"),
    (1, "1000.0e-1", "100"),
    (1, "0.000000000123456789", "0.000000000123456789"),
    (1, "1e18", "1000000000000000000"),
    (1, "1e+3", "1000"),
    (1, ".5", "0.5"),
    (1, "1234567890", "1234567890"),
]
NO_TICKS = ["1234567891", "1e19", "1e-19", "0", "-1", "+1", "", "1e", "1 ", "nan"]

# A whole file; of each of its samples the ticks, the bytes, and what is shown. A tick is 5 times
# 100 ns. Of the twelve bits n of speed it is the x for which (8 x - 1) / 2 is n.
EXAMPLE = r"""/* A motor */
ASAP2_VERSION 1 61
/begin PROJECT motor "A motor"
  /begin HEADER "Of a motor" VERSION "1" /end HEADER
  /begin MODULE ecu "Its controller"
    /begin IF_DATA OTHER
      /begin TIMESTAMP_SUPPORTED 9 SIZE_WORD UNIT_1S /end TIMESTAMP_SUPPORTED
    /end IF_DATA
    /begin IF_DATA XCP
      /begin DAQ DYNAMIC
        /begin TIMESTAMP_SUPPORTED 5 SIZE_DWORD UNIT_100NS TIMESTAMP_FIXED /end TIMESTAMP_SUPPORTED
      /end DAQ
    /end IF_DATA
    /begin MEASUREMENT speed "Speed of the shaft" UWORD rpm 0 0 0 6000
      ECU_ADDRESS 0x10 BIT_MASK 0x0FFF
      /begin IF_DATA XCP
        /begin TIMESTAMP_SUPPORTED 9 SIZE_WORD UNIT_1S /end TIMESTAMP_SUPPORTED
      /end IF_DATA
    /end MEASUREMENT
    /begin MEASUREMENT state "" SBYTE states 0 0 0 3
      ECU_ADDRESS 18 BYTE_ORDER MSB_LAST PHYS_UNIT "a \"b\""
    /end MEASUREMENT
    /begin MOD_COMMON "" DEPOSIT ABSOLUTE BYTE_ORDER MSB_FIRST /end MOD_COMMON
    /begin COMPU_METHOD rpm "" RAT_FUNC "%5.1" "1/min" COEFFS 0 8 -1 0 0 2 /end COMPU_METHOD
    /begin COMPU_METHOD states "" TAB_VERB "%2.0" "" COMPU_TAB_REF table /end COMPU_METHOD
    /begin COMPU_VTAB_RANGE table "" 2 0 1 "off" 2 3 "on" DEFAULT_VALUE "?" /end COMPU_VTAB_RANGE
  /end MODULE
  /begin MODULE second ""
    /begin COMPU_METHOD line "" LINEAR "%5.1" "V" COEFFS_LINEAR 2.5 -1 /end COMPU_METHOD
    /begin MEASUREMENT voltage "" FLOAT64_IEEE line 0 0 0 1 ECU_ADDRESS 0 /end MEASUREMENT
  /end MODULE
/end PROJECT
"""
EXAMPLE_HEADS = ["time [s]", "list", "overload", "speed [1/min]", 'state [a "b"]', "voltage [V]"]
EXAMPLE_ROWS = [
    (3, struct.pack("<d", 4.0) + bytes(8) + b"\xf0\x03\x03",
     ["0.0000015", "0", "0", "0.875", "on", "9.0"]),
    (4, struct.pack("<d", 0.0) + bytes(8) + b"\x01\x00\x01",
     ["0.000002", "0", "0", "64.125", "off", "-1.0"]),
    (7, struct.pack("<d", -0.5) + bytes(8) + b"\x00\x00\xff",
     ["0.0000035", "0", "0", "0.125", "?", "-2.25"]),
]

# Six values, and their line of the table. The sum of the five that are numbers is 7; the first of
# -0 and 0 is the least one.
NOTED = [float("nan"), 2.5, -0.0, 0.0, 4.0, 0.5]
NOTED_LINE = ["6", "-0", "4", "1.4", "a"]

# Singles, and their line of the table: the mean of 0.1, 0.1 and 0.1 is 0.1; that of 0.1 and 0.3 is
# (0.100000001490116.. + 0.300000011920928..) / 2, which no float of 32 bits has.
SINGLES = [
    ([0.1, 0.1, 0.1], ["3", "0.1", "0.1", "0.1", "a"]),
    ([0.1, 0.3], ["2", "0.1", "0.3", "0.20000000670552254", "a"]),
    ([1.0, 16777216.0], ["2", "1", "16777216", "8388608.5", "a"]),
]

# A picture of three measurements, the place of each in memory and of its samples the list, the
# ticks, the value, and whether samples were dropped before it. The 2 s are 720 units wide, so 0.1 s
# is 36; the first curve is 64 units high, from 60 down to -0.5.
CURVES = (measurement("FLOAT64_IEEE", 'PHYS_UNIT "km/h"', name="speed", address=0)
          + measurement("FLOAT64_IEEE", name="a<b", address=8)
          + measurement("FLOAT64_IEEE", name="huge", address=16))
CURVE_SAMPLES = [
    (0, 10000, -0.5, False),
    (0, 10100, 9.5, False),
    (0, 10200, 19.5, False),
    (0, 10300, 29.5, False),
    (0, 10400, 39.5, False),
    (0, 10500, 49.5, False),
    (0, 10600, 60.0, False),
    (0, 12000, 29.5, True),
    (1, 12000, float("nan"), False),
    (2, 10000, 1e12, False),
    (2, 12000, -0.30000000000000004, False),
]
PIECES = [
    ("a title", "<title>Measured values</title>"),
    ("a name and its unit", '>speed<tspan class="m" dx="8">km/h</tspan></text>'),
    ("a name with a mark of XML in it", ">a&lt;b</text>"),
    ("a row of which no value is drawn", ">no finite value</text>"),
    ("how many values there are", ">8 values</text>"),
    ("the greatest value", ">60</text>"),
    ("the least value", ">-0.5</text>"),
    ("a value with an exponent", ">1e12</text>"),
    ("a value without its last decimals", ">-0.3</text>"),
    ("a curve that is broken where samples were dropped",
     'd="M0 64L36 53.4L72 42.8L108 32.3L144 21.7L180 11.1L216 0M720 32.3"/>'),
    ("a dot for a value alone", '<path class="p" d="M720 32.3h.1"/>'),
    ("a shade where samples were dropped", '<path class="l" d="M216 0h504"/>'),
    ("a mark at its end", '<path class="o" d="M720 0h2"/>'),
    ("the word of the axis", ">time in seconds</text>"),
    ("a label of the axis", ">10.5</text>"),
]

# Pictures of a measurement with texts: its table, its values, 100 ticks apart, the curve, and the
# texts at its left with their lines. Between the least and the greatest value the curve is 64 units
# high, and lines go from 65 up to 9: at 7/8 of the height, no two of them nearer than 13.
STEPS = [
    ("values with texts are steps; a text is cut, and is written as XML has it",
     'COMPU_VTAB t "" TAB_VERB 4 0 "off" 1 "<on>" 2 "fourteen letters" 7 "never" /end COMPU_VTAB',
     [0, 2, 1, 1], "M0 64H240V0H480V32H720V32",
     [("off", "65"), ("&lt;on&gt;", "37"), ("fourteen lette\u2026", "9")]),
    ("of ten texts those that find room",
     'COMPU_VTAB t "" TAB_VERB 10 ' + " ".join(f'{n} "n{n}"' for n in range(10))
     + " /end COMPU_VTAB", [0, 9], "M0 64H720V0",
     [("n0", "65"), ("n3", "46.3"), ("n6", "27.6"), ("n9", "9")]),
    ("texts of ranges stand at their least values that are shown",
     'COMPU_VTAB_RANGE t "" 3 0 4 "low" 5 8 "high" 10 20 "never" /end COMPU_VTAB_RANGE',
     [2, 9], "M0 64H720V0", [("low", "65"), ("high", "41")]),
    ("a value that never changes", 'COMPU_VTAB t "" TAB_VERB 1 3 "on" /end COMPU_VTAB',
     [3, 3], "M0 32H720V32", [("on", "37")]),
    ("numbers, if no value has a text",
     'COMPU_VTAB t "" TAB_VERB 1 3 "on" DEFAULT_VALUE "off" /end COMPU_VTAB',
     [4, 6], "M0 64H720V0", [("6", "9"), ("4", "65")]),
]
TEXT_AT = re.compile(r'<text class="m e" x="-8" y="([0-9.]+)">([^<]*)</text>')


class Recordings:
    """Recordings of DAQ lists of one entry each, of these sizes, one behind another in memory."""

    def __init__(self, recorder, room, sizes):
        self.sizes = sizes
        self.run = f"{room}/rows_{len(sizes)}.toml"
        self.frames = f"{room}/rows_{len(sizes)}"
        lists = [struct.pack("<H", place).hex() for place in range(len(sizes))]
        setup = ["d6", "d500" + struct.pack("<H", len(sizes)).hex()]
        setup += [f"d400{each}01" for each in lists] + [f"d300{each}0001" for each in lists]
        for place, each in enumerate(lists):
            address = struct.pack("<I", sum(sizes[:place])).hex()
            setup += [f"e200{each}0000", f"e1ff{sizes[place]:02x}00{address}",
                      f"e010{each}00000100", f"de01{each}"]
        packets = ", ".join(f'"{packet}"' for packet in setup)
        with open(self.run, "w", encoding="ascii") as file:
            file.write(f"channels = 1\nimage_len = {sum(sizes)}\ncaps = [4]\nstamp_size = 4\n"
                       f"setup = [{packets}]\nsteps = []\n")
        subprocess.run([recorder, "--out", self.frames, self.run], capture_output=True, timeout=60)
        with open(self.frames, "rb") as file:
            self.replies = file.read()
        self.counter = len(setup)

    def write(self, samples):
        """Makes the recording of samples, in their order: the list, the ticks, the bytes, and
        whether samples were dropped before it."""
        with open(self.frames, "wb") as file:
            file.write(self.replies)
            for place, (of, ticks, data, lost) in enumerate(samples):
                packet = struct.pack("<BI", of + 128 * lost, ticks)
                packet += data.ljust(self.sizes[of], b"\0")
                file.write(struct.pack("<HH", len(packet), self.counter + place) + packet)


def check(tell, reader, recorder, room):
    one, three = Recordings(recorder, room, [40]), Recordings(recorder, room, [8, 8, 8])

    def read(recording, a2l, *words):
        with open(f"{room}/rows.a2l", "wb") as file:
            file.write(a2l.encode("latin-1"))
        words = [reader, "--a2l", f"{room}/rows.a2l", *words, recording.run, recording.frames]
        made = subprocess.run(words, capture_output=True, timeout=60)
        return made.stdout.decode(), made.stderr.decode(), made.returncode

    def row(name, a2l, wanted, data=BYTES):
        one.write([(0, 0, data, False)])
        text, said, status = read(one, a2l, "--csv")
        if isinstance(wanted, dict):
            shown = [each[3:] for each in csv.reader(io.StringIO(text, newline=""))]
            holds = (said, status, shown) == ("", 0, [[*wanted], [*wanted.values()]])
        else:
            line = wanted if wanted in (NONE, EMPTY, UTF_16, ZERO) else f"bad a2l: {wanted}"
            holds = (text, said, status) == ("", f"xcpread: {line}\n", 2)
        tell(name, holds, text + said)

    for name, text, wanted in TEXTS:
        row(name, text, wanted)
    for name, blocks, wanted in MODULES:
        row(name, in_module(blocks), wanted)
    for word, shown in MASKS:
        wanted = {"a": shown} if shown.isdigit() else f"line 2, column 81: {shown}"
        blocks = measurement("A_UINT64", f"BIT_MASK {word}")
        row(f"the integer {word}", in_module(blocks), wanted, b"\xff" * 8)
    for word, shown in FACTORS:
        wanted = f"line 2, column 53: {shown}" if shown == NUMBER else {"a": shown}
        blocks = method(f'LINEAR "" "" COEFFS_LINEAR {word} 0') + measurement("UBYTE", method="m")
        row(f"the number {word}", in_module(blocks), wanted, b"\x01")
    for quoted, shown in QUOTED + [("", "")]:
        blocks = method('TAB_VERB "" "" COMPU_TAB_REF t') + measurement("UBYTE", method="m")
        blocks += f'/begin COMPU_VTAB t "" TAB_VERB 1 1"{quoted}"/end COMPU_VTAB\n'
        row(f"a text of {quoted!r}", in_module(blocks), {"a": shown}, b"\x01")
        blocks = measurement("UBYTE", f'PHYS_UNIT"{quoted}"')
        head = f"a [{shown}]" if shown else "a"
        row(f"a unit of {quoted!r}", in_module(blocks), {head: "1"}, b"\x01")

    for data_type, order, mask, data, shown in RAW:
        options = f"BYTE_ORDER {order}" + (f" BIT_MASK {mask}" if mask else "")
        blocks = measurement(data_type, options)
        row(f"{data} as {data_type}, {options}", in_module(blocks), {"a": shown},
            bytes.fromhex(data))
    for data_type, mask, operation, data, shown in OPERATIONS:
        options = f"BIT_MASK {mask} " if mask else ""
        if operation is not None:
            options += f"/begin BIT_OPERATION {operation} /end BIT_OPERATION"
        row(f"{data} as {data_type}, {options}", in_module(measurement(data_type, options)),
            {"a": shown}, bytes.fromhex(data))
    for side in "LEFT", "RIGHT":
        for word, said in SHIFTS:
            blocks = measurement("UBYTE", f"/begin BIT_OPERATION {side}_SHIFT {word} "
                                          "/end BIT_OPERATION")
            row(f"{side}_SHIFT {word}", in_module(blocks),
                f"line 2, column {len(side) + 97}: {said}")
    row("a shift without its number",
        in_module('/begin MEASUREMENT a "" UBYTE NO_COMPU_METHOD 0 0 0 1 /begin BIT_OPERATION '
                  "LEFT_SHIFT /end BIT_OPERATION /end MEASUREMENT"),
        "line 2, column 106: expected a shift by 0 to 63 bits")
    for words, data_type, data, shown in PHYSICAL:
        blocks = TABLES + method(words) + measurement(data_type, method="m")
        head = "a [raw]" if words.startswith("FORM") else "a"
        row(f"{data.hex()} as {data_type}, {words}", in_module(blocks), {head: shown}, data)

    a2l = in_module(measurement("UBYTE"))
    for ticks, tick, time in TIMES:
        one.write([(0, ticks, b"", False)])
        wanted = f"time [s],list,overload,a\r\n{time},0,0,0\r\n"
        answer = read(one, a2l, "--csv", f"--tick={tick}")
        tell(f"{ticks} ticks of {tick} s", answer == (wanted, "", 0), answer)
    for tick in NO_TICKS:
        text, said, status = read(one, a2l, "--csv", f"--tick={tick}")
        holds = (text, said.split("\n")[0], status) == ("", "xcpread: bad command line", 2)
        tell(f"{tick!r} is no length of a tick", holds, said)

    one.write([(0, ticks, data, False) for ticks, data, _ in EXAMPLE_ROWS])
    text, said, status = read(one, EXAMPLE, "--csv")
    shown = [*csv.reader(io.StringIO(text, newline=""))]
    wanted = [EXAMPLE_HEADS, *(values for _, _, values in EXAMPLE_ROWS)]
    tell("a whole file", (shown, said, status) == (wanted, "", 0), text + said)

    one.write([(0, 0, BYTES, False)])
    text, said, status = read(one, in_module(HIDDEN), "--csv")
    tell("what isn't shown is counted", (text.splitlines()[0], said, status)
         == ("time [ticks],list,overload,shown", HIDDEN_LINE, 0), text + said)
    tell("and with a picture too", read(one, in_module(HIDDEN), "--svg")[1:] == (HIDDEN_LINE, 0))
    text, said, status = read(one, in_module(HIDDEN))
    wanted = HIDDEN_LINE + "".join(f"xcpread: not shown: {name}\n" for name in HIDDEN_NAMES)
    tell("with the table it is named", (said, status) == (wanted, 0), text + said)
    tell("unless some are chosen", read(one, in_module(HIDDEN), "--only=shown")[1:] == ("", 0))
    three.write([(0, 0, bytes(8), False)])
    a2l = in_module(measurement("UWORD", name="a", address=6)
                    + measurement("UWORD", name="b", address=7))
    tell("a value of bytes in two entries isn't shown", read(three, a2l)[1:]
         == ("xcpread: not shown of the a2l: 1 of 2 measurements and instances\n"
             "xcpread: not shown: b\n", 0))
    a2l = in_module(measurement("UWORD", "ARRAY_SIZE 3", address=5))
    text, said, status = read(three, a2l, "--csv")
    tell("nor is an element; the others of its array are", (text.splitlines()[0], said, status)
         == ("time [ticks],list,overload,a[0],a[2]", "", 0), text + said)
    text, said, status = read(three, a2l, "--csv", "--only=a[2]")
    tell("an element is chosen by its name", (text.splitlines()[0], said, status)
         == ("time [ticks],list,overload,a[2]", "", 0), text + said)
    row("an INSTANCE alone", in_module('/begin INSTANCE a "" t 0 /end INSTANCE'), NONE)
    row("an INSTANCE without a name", in_module('/begin INSTANCE "a" "" t 0 /end INSTANCE'),
        "line 2, column 17: expected a name")

    one.write([(0, at, struct.pack("<d", value), False) for at, value in enumerate(NOTED)])
    text, said, status = read(one, in_module(measurement("FLOAT64_IEEE")), "--summary")
    lines = [line.split() for line in text.splitlines()[1:]]
    holds = (lines, said, status) == ([NOTED_LINE], "", 0)
    tell("six values in the table, of which one is no number", holds, text + said)

    for values, wanted in SINGLES:
        for words in 'IDENTICAL "" ""', 'LINEAR "" "" COEFFS_LINEAR 1 0':
            one.write([(0, at, struct.pack("<f", value), False) for at, value in enumerate(values)])
            blocks = method(words) + measurement("FLOAT32_IEEE", method="m")
            text, said, status = read(one, in_module(blocks), "--summary")
            lines = [line.split() for line in text.splitlines()[1:]]
            tell(f"{values} as FLOAT32_IEEE in the table, {words}",
                 (lines, said, status) == ([wanted], "", 0), text + said)

    three.write([(of, at, struct.pack("<d", value), lost) for of, at, value, lost in CURVE_SAMPLES])
    text, said, status = read(three, in_module(CURVES), "--svg", "--tick=0.001")
    for name, piece in PIECES:
        tell(f"a picture has {name}", (said, status) == ("", 0) and piece in text, text + said)
    for name, table, values, curve, texts in STEPS:
        one.write([(0, 100 * at, bytes([value]), False) for at, value in enumerate(values)])
        blocks = method('TAB_VERB "" "" COMPU_TAB_REF t') + measurement("UBYTE", method="m")
        text, said, status = read(one, in_module(f"{blocks}/begin {table}\n"), "--svg")
        lines = [(words, line) for line, words in TEXT_AT.findall(text)]
        tell(f"a picture: {name}", (said, status, lines) == ("", 0, texts)
             and f'<path class="v" d="{curve}"/>' in text, text + said)
