"""Rust literals and tokens, by the C library litrs.

    >>> import litrs
    >>> litrs.parse("0xFF_u8").value
    255
    >>> litrs.write_string("a\\n")
    '"a\\\\n"'
    >>> [token.text for token in litrs.tokens("x+=1u8")]
    ['x', '+', '=', '1u8']

A text is a str, or bytes, a bytearray or a memoryview of bytes in UTF-8. Spans and lengths count
characters of a str, and bytes of the others. Any other argument raises TypeError, a memoryview that
was released ValueError, and a str with a lone surrogate, which UTF-8 cannot encode,
UnicodeEncodeError.

The library is the file that LITRS_LIBRARY names, the one that was installed with this module, or
the loader's.
"""
import ctypes
import dataclasses
import functools
import operator
import os
import pathlib
from typing import Iterator, Optional, Tuple, Union

__all__ = [
    "Literal", "ParseError", "Token", "goes_on", "parse", "parse_prefix", "tokens", "version",
    "write_bytes", "write_integer", "write_string",
]
# The version of this module; version() returns that of the library.
__version__ = "1.0.1-rattle.2"

_Bytes = Union[bytes, bytearray, memoryview]
_Text = Union[str, _Bytes]

_SIZE, _WORD, _LONG, _BOOL = ctypes.c_size_t, ctypes.c_uint32, ctypes.c_uint64, ctypes.c_bool
_LITERAL, _REFUSED, _NOT_UTF8, _OUT_OF_MEMORY, _NO_STRING, _NO_PREFIX = range(6)
# The first room for a result has this many bytes more than the arguments of its call.
_MORE = 100


def _structure(name, **fields):
    return type(name, (ctypes.Structure,), {"_fields_": list(fields.items())})


# As in litrs.h.
_Place = _structure("_Place", start=_SIZE, end=_SIZE)
_Literal = _structure(
    "_Literal", kind=_WORD, base=_WORD, is_raw=_BOOL, has_fraction=_BOOL, has_value=_BOOL,
    value_low=_LONG, value_high=_LONG, main=_Place, fraction=_Place, exponent=_Place, suffix=_Place,
)
_Refusal = _structure(
    "_Refusal", kind=_WORD, has_span=_BOOL, is_final=_BOOL, is_open=_BOOL, span=_Place,
    char_span=_Place,
)
_Answer = _structure("_Answer", status=_WORD, literal=_Literal, refusal=_Refusal)
_Prefix = _structure("_Prefix", answer=_Answer, len=_SIZE)
_Written = _structure("_Written", status=_WORD, len=_SIZE)
_Cursor = _structure("_Cursor", text=ctypes.c_void_p, len=_SIZE, at=_SIZE)
_Token = _structure("_Token", kind=_WORD, doc_style=_WORD, is_trivia=_BOOL, place=_Place)
_StaticText = _structure("_StaticText", text=ctypes.c_char_p, size=_SIZE)

_TEXT = [ctypes.c_char_p, _SIZE]
_CALLS = {
    "parse": (_Answer, _TEXT),
    "parse_prefix": (_Prefix, _TEXT),
    "value": (_Written, _TEXT * 2),
    "f64": (_WORD, [*_TEXT, ctypes.POINTER(ctypes.c_double)]),
    "message": (_Written, _TEXT * 2),
    "goes_on": (_BOOL, _TEXT),
    "check": (_BOOL, [*_TEXT, ctypes.POINTER(_Cursor)]),
    "next_token": (_BOOL, [ctypes.POINTER(_Cursor), ctypes.POINTER(_Token)]),
    "write_string": (_Written, _TEXT * 3),
    "write_bytes": (_Written, _TEXT * 3),
    "write_integer": (_Written, [_LONG, _LONG, *_TEXT * 2]),
    "get_version": (None, [ctypes.POINTER(_StaticText)]),
    "get_kind_name": (None, [_WORD, ctypes.POINTER(_StaticText)]),
    "get_error_name": (None, [_WORD, ctypes.POINTER(_StaticText)]),
    "get_token_kind_name": (None, [_WORD, ctypes.POINTER(_StaticText)]),
}


def _load():
    """Returns the calls of the library, by their names without `litrs_`."""
    installed = pathlib.Path(__file__).resolve().parent.parent.parent / "lib/liblitrs.so.1"
    path = os.environ.get("LITRS_LIBRARY") or (installed if installed.exists() else installed.name)
    library, found = ctypes.CDLL(str(path)), {}
    for name, (result, parameters) in _CALLS.items():
        found[name] = library[f"litrs_{name}"]
        found[name].restype, found[name].argtypes = result, parameters
    return found


# The calls of the library as ctypes has them.
_calls = _load()


@dataclasses.dataclass(frozen=True)
class Literal:
    """A literal.

    kind      "Bool", "Integer", "Float", "Char", "Byte", "String", "ByteString" or "CString"
    value     a bool; an int for an integer or a byte; the float nearest to a float, whatever its
              suffix, or inf if it is too large; a str for a char or a string; bytes for a byte
              string or a C string
    suffix    such as "u8", or ""
    base      of an integer: 2, 8, 10 or 16; else 0
    is_raw    True for a raw string of one of the three kinds
    main      the digits and underscores of an integer after its prefix, of a float before period
              and exponent
    fraction  those of a float after its period, or None if it has no period
    exponent  the exponent of a float, with its letter and sign
    """

    kind: str
    value: Union[bool, int, float, str, bytes]
    suffix: str
    base: int = 0
    is_raw: bool = False
    main: str = ""
    fraction: Optional[str] = None
    exponent: str = ""


class ParseError(ValueError):
    """The error of a text that is not a literal.

    kind      such as "InvalidDigit", which the header calls LITRS_ERROR_INVALID_DIGIT
    span      the start and the end of what is wrong, such as (2, 3), or None
    message   what is wrong, such as "input is empty"; a place in it counts bytes
    is_final  True only if no text that begins with this one is a literal
    is_open   True only if a string lacks just its closing quote and hashes
    length    the length of the malformed literal, which for `parse` is that of the text

    It can be copied and pickled, also as a subclass with another constructor.
    """

    kind: str
    span: Optional[Tuple[int, int]]
    message: str
    is_final: bool
    is_open: bool
    length: int

    def __init__(
        self, kind: str, span: Optional[Tuple[int, int]], message: str, is_final: bool,
        is_open: bool, length: int,
    ) -> None:
        super().__init__(message)
        self.kind, self.span, self.message = kind, span, message
        self.is_final, self.is_open, self.length = is_final, is_open, length

    def __reduce__(self):
        # The constructor does not take what `args` has, which is the message alone.
        return _error_without_init, (type(self), self.args), self.__dict__


def _error_without_init(kind, args):
    """Returns an error of this class, without a call of its constructor."""
    return ValueError.__new__(kind, *args)


@dataclasses.dataclass(frozen=True)
class Token:
    """A token of a Rust source, as `tokens` makes it.

    kind       "Whitespace", "LineComment", "BlockComment", "UnterminatedBlockComment", "Ident",
               "RawIdent", "UnknownPrefix", "Lifetime", "RawLifetime", "UnknownPrefixLifetime",
               "Literal", "MalformedLiteral", "Punctuation" or "Unknown"
    text       the text of the token: a str if the source is one, and otherwise bytes
    start      where it starts in the source
    end        where it ends
    is_trivia  True for white space and for comments of all kinds
    doc_style  "Inner" if it is a comment like //! that documents the item around it, "Outer" if it
               is one like /// that documents the next item; else None
    """

    kind: str
    text: Union[str, bytes]
    start: int
    end: int
    is_trivia: bool
    doc_style: Optional[str]
    # Where it starts in the source, in bytes.
    _offset: int = dataclasses.field(default=0, repr=False, compare=False)

    def literal(self) -> Optional[Literal]:
        """Parses the literal of a token of the kind "Literal". Returns None if the kind is neither
        "Literal" nor "MalformedLiteral". Raises ParseError if the literal is malformed; its span
        counts from the start of the source. Raises MemoryError if there is no memory for the
        value."""
        if self.kind not in ("Literal", "MalformedLiteral"):
            return None
        data = _data(self.text)
        answer = _calls["parse"](data, len(data))
        return _literal(self.text, data, answer, self.start, self._offset)


def version() -> str:
    """Returns the version of the library."""
    return _static("get_version")


def parse(text: _Text) -> Literal:
    """Parses a text that is one literal. Raises ParseError if it is not, UnicodeDecodeError if
    bytes are not UTF-8, and MemoryError if there is no memory for the value."""
    data = _data(text)
    answer = _calls["parse"](data, len(data))
    return _literal(text, data, answer)


def parse_prefix(text: _Text) -> Optional[Tuple[Literal, int]]:
    """Parses the literal at the front of a text. Returns it with its length, or None if no literal
    begins there, for example before a name or white space. Raises ParseError if a malformed literal
    begins there, UnicodeDecodeError if any part of the bytes is not UTF-8, even after the literal,
    and MemoryError if there is no memory for the value."""
    data = _data(text)
    prefix = _calls["parse_prefix"](data, len(data))
    if prefix.answer.status == _NO_PREFIX:
        return None
    front = data if prefix.answer.status == _NOT_UTF8 else data[: prefix.len]
    return _literal(text, front, prefix.answer), _index(text, data, prefix.len)


def goes_on(text: _Text) -> bool:
    """Returns True if the text, or the text with some text appended, is a literal, and False for
    bytes that are not UTF-8."""
    data = _data(text)
    return _calls["goes_on"](data, len(data))


def tokens(text: _Text) -> Iterator[Token]:
    """Cuts a Rust source into tokens, and returns an iterator over them. Joined, their texts are
    the source. The source is encoded and checked once, so a walk takes time in proportion to its
    length. Raises UnicodeDecodeError if bytes are not UTF-8."""
    data, cursor = _data(text), _Cursor()
    room = (ctypes.c_char * len(data)).from_buffer_copy(data)
    if not _calls["check"](room, len(data), cursor):
        data.decode()
    return _walk(isinstance(text, str), data, room, cursor)


def _walk(is_str, data, room, cursor):
    """Yields the tokens of a source. Keeps the room, to which the cursor points."""
    token, start = _Token(), 0
    while _calls["next_token"](cursor, token):
        offset = token.place.start
        text = data[offset : token.place.end]
        text = text.decode() if is_str else text
        end = start + len(text)
        kind, doc_style = _TOKEN_KINDS[token.kind], _DOC_STYLES[token.doc_style]
        yield Token(kind, text, start, end, token.is_trivia, doc_style, offset)
        start = end


def write_string(value: str, suffix: str = "") -> str:
    """Returns the string literal of a text, with each escape that it needs. Raises ValueError if no
    string has the suffix."""
    return _literal_of("string", _encoded(value, "the value"), suffix)


def write_bytes(value: _Bytes, suffix: str = "") -> str:
    """Returns the byte string literal of bytes. Raises ValueError if no byte string has the
    suffix."""
    return _literal_of("bytes", _bytes(value, "the value", "bytes"), suffix)


def write_integer(value: int, suffix: str = "") -> str:
    """Returns the integer literal of a number, in base ten. Raises OverflowError if the number is
    negative, as a literal has no sign, or not below 2**128, and ValueError if no integer has the
    suffix."""
    if isinstance(value, bool):
        raise TypeError("the value must be an int, not bool")
    number = operator.index(value)
    if number < 0:
        raise OverflowError("the value is negative, and an integer literal has no sign")
    if number >> 128:
        raise OverflowError("the value is not below 2**128")
    return _literal_of("integer", (number & 2**64 - 1, number >> 64), suffix)


def _literal_of(kind, value, suffix):
    """Returns the literal that litrs_write_KIND writes for the arguments of the value."""
    ending = _encoded(suffix, "the suffix")
    words = value if kind == "integer" else (value, len(value))
    status, text = _written(f"write_{kind}", *words, ending, len(ending))
    if status == _REFUSED:
        name = {"bytes": "a byte string", "string": "a string", "integer": "an integer"}[kind]
        raise ValueError(f"{suffix!r} cannot be the suffix of {name} literal")
    return text.decode()


def _data(text):
    """Returns the bytes of a text."""
    if isinstance(text, str):
        return _encoded(text, "the text")
    return _bytes(text, "the text", "a str, bytes")


def _encoded(text, what):
    if not isinstance(text, str):
        raise TypeError(f"{what} must be a str, not {type(text).__name__}")
    return str.encode(text)


def _bytes(data, what, kinds):
    """Returns the bytes of an object that is bytes-like. bytes() takes numbers and lists too."""
    if type(data) is bytes:
        return data
    if not isinstance(data, (bytes, bytearray, memoryview)):
        kinds = f"{kinds}, a bytearray or a memoryview"
        raise TypeError(f"{what} must be {kinds}, not {type(data).__name__}")
    view = memoryview(data)
    if view.format.lstrip("@=<>!") not in ("B", "b", "c") or view.ndim != 1:
        raise TypeError(f"{what} must be a memoryview of bytes, in one dimension")
    return view.tobytes()


def _index(text, data, place):
    """Returns a place of the bytes as an index into the text."""
    return len(data[:place].decode()) if isinstance(text, str) else place


@functools.lru_cache(maxsize=None)
def _static(call, *number):
    """Returns a text of the library, asked for once."""
    static = _StaticText(b"", 1)
    _calls[call](*number, static)
    return static.text.decode()


def _written(call, *words):
    """Returns the status of a call that writes, and the bytes that it writes. Calls again if they
    are more than expected."""
    size = _MORE + sum(len(word) for word in words if isinstance(word, bytes))
    room, answer = _with_room(call, words, size)
    if answer.len > size:
        room, answer = _with_room(call, words, answer.len)
    if answer.status == _OUT_OF_MEMORY:
        raise MemoryError
    return answer.status, room[: answer.len]


def _with_room(call, words, size):
    """Calls with room for `size` bytes. Returns the room and the answer."""
    room = ctypes.create_string_buffer(size)
    return room, _calls[call](*words, room, size)


def _literal(text, data, answer, start=0, offset=0):
    """Returns the literal of an answer on the bytes, or raises the exception of its status. The
    text begins at `start` in its source, and the bytes at `offset` in those of it."""
    if answer.status == _NOT_UTF8:
        data.decode()
    if answer.status == _OUT_OF_MEMORY:
        raise MemoryError
    if answer.status == _REFUSED:
        raise _error(text, data, answer.refusal, start, offset)
    fields = answer.literal

    def part(place):
        return data[place.start : place.end].decode()

    kind, main = _static("get_kind_name", fields.kind), part(fields.main)
    return Literal(
        kind, _value(kind, data, fields, main), part(fields.suffix), fields.base, fields.is_raw,
        main, part(fields.fraction) if fields.has_fraction else None, part(fields.exponent),
    )


def _value(kind, data, fields, digits):
    number = fields.value_high << 64 | fields.value_low
    if kind == "Integer" and not fields.has_value:
        return _integer(digits.replace("_", ""), fields.base)
    if kind in ("String", "ByteString", "CString"):
        _, value = _written("value", data, len(data))
        return value.decode() if kind == "String" else value
    if kind == "Float":
        return _float(data)
    return {"Bool": bool, "Char": chr}.get(kind, int)(number)


def _float(data):
    """Returns the float nearest to a number."""
    value = ctypes.c_double()
    if _calls["f64"](data, len(data), value) == _OUT_OF_MEMORY:
        raise MemoryError
    return value.value


def _integer(digits, base):
    """Returns the value of digits, in base ten by halves: int() may take no more than 640."""
    if base != 10 or len(digits) <= 640:
        return int(digits, base)
    half = len(digits) // 2
    return _integer(digits[:-half], base) * 10**half + _integer(digits[-half:], base)


def _error(text, data, refusal, start, offset):
    place = refusal.char_span if isinstance(text, str) else refusal.span
    span = (start + _index(text, data, place.start), start + _index(text, data, place.end))
    message = _written("message", data, len(data))[1].decode()
    if refusal.has_span:
        first, last = refusal.span.start, refusal.span.end
        moved = f" (at {offset + first}..{offset + last})"
        message = message.replace(f" (at {first}..{last})", moved)
    return ParseError(
        _static("get_error_name", refusal.kind), span if refusal.has_span else None, message,
        refusal.is_final, refusal.is_open, _index(text, data, len(data)),
    )


_TOKEN_KINDS = [_static("get_token_kind_name", kind) for kind in range(15)]
_DOC_STYLES = [None, "Inner", "Outer"]
