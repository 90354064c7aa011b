"""What holds of every kind of document (docs/FORMATS.md, "Documents"): sizes, JSON, versions, and
members that nobody reads."""

DOCUMENT, MEGABYTE, DEPTH = 16_777_216, 1_048_576, 127
S1, S2, S8 = b"S1 NotJson document", b"S2 BadVersion document", b"S8 TooLarge document"
S3 = b"S3 BadShape document member document"


def nested(levels, opened=b"[", closed=b"]"):
    return opened * levels + b"0" + closed * levels


# the value of `version` in a document of version 1, and the error or None;
# texts after it are further members
VERSIONS = [(b'"1"', S2), (b"-1", S2), (b"1e400", S1), (b"1.0", S2), (b"1e0", S2), (b"true", S2),
            (b"null", S2), (b"[1]", S2),
            (b"-0", S2), (b"01", S1), (b"+1", S1), (b"1.", S1), (b"0x1", S1),
            (b"18446744073709551617", S2), (b"3", S2),
            (b"9" * 400, S1), (b"", S1), (b"1 ", None),
            (b'2,"version":1', None), (b'1,"version":3', S2),
            (b'1,"version":null', S2),]

# the value of a member that nobody reads, and the error or None
VALUES = [(nested(100), None), (nested(200), S1), (nested(DEPTH - 1), None),
          (nested(DEPTH), S1), (nested(100_000), S1),
          (nested(100, b'{"a":', b"}"), None), (nested(DEPTH - 1, b'{"a":', b"}"), None),
          (nested(DEPTH, b'{"a":', b"}"), S1),
          (b"[" * 100_000, S1),
          (b"1e400", S1), (b"-1e400", S1),
          (b"[-1.5E+308,1e-400,-0.0,123456789012345678901234567890]", None),
          (b"NaN", S1), (b"Infinity", S1), (b"nul", S1), (b"1.e5", S1), (b"[1,]", S1),
          (b'{"a":1,}', S1), (b"'a'", S1),
          (b'"\xff"', S1), (b'"\xc0\x80"', S1), (b'"\xed\xa0\x80"', S1),
          (b'"\xf4\x90\x80\x80"', S1),
          (b'"\\ud800"', S1), (b'"\\udc00\\ud800"', S1),
          (b'"\\ud83d\\ude00\\u0000\xf0\x9f\x98\x80\x7f"', None),
          (b'"a\nb"', S1), (b'"a\x00b"', S1), (b'"\\x41"', S1), (b'"\\u12"', S1),
          (b'1,"unknown":"\\ud800"', S1), (b'"\\ud800","unknown":1', S1), (b"1/**/", S1),
          (b"1//\n", S1),]

# the reason, a function that changes the text of a document that is accepted, and the error or None
WHOLE = [
    ("no byte", lambda text: b"", S1),
    ("a mark of the byte order", lambda text: b"\xef\xbb\xbf" + text, S1),
    ("UTF-16", lambda text: text.decode().encode("utf-16"), S1),
    ("something after it", lambda text: text + b"x", S1),
    ("a NUL after it", lambda text: text + b"\x00", S1),
    ("spaces around it", lambda text: b"\t\r\n " + text + b" \n\r\t", None),
    ("an array in its place", lambda text: b"[" + text + b"]", S3),
    ("an empty array in its place", lambda text: b"[]", S3),
    ("a number in its place", lambda text: b"7", S3),
    ("null in its place", lambda text: b"null", S3),
    ("no version", lambda text: text.replace(b'"version"', b'"Version"'), S2),
    ("the size of a megabyte", lambda text: text.ljust(MEGABYTE), None),
    ("the greatest size", lambda text: text.ljust(DOCUMENT), None),
    ("a byte more", lambda text: text.ljust(DOCUMENT + 1), S8),
    ("a byte more, and no JSON", lambda text: b"x" * (DOCUMENT + 1), S8),
]


def of_kind(text):
    """The rows for a kind of document that accepts this text: the reason, a function that changes
    the text, and the error or None."""
    for value, fault in VERSIONS:
        yield (f"version {value[:30]}", lambda value=value: text.replace(b'"version":1',
                                                                         b'"version":' + value),
               fault)
    for value, fault in VALUES:
        yield (f"unknown member {value[:30]}", lambda value=value: b'{"unknown":%s,%s'
               % (value, text[1:]), fault)
    for why, change, fault in WHOLE:
        yield why, lambda change=change: change(text), fault
