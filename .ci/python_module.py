"""Tests the Python module of the C library apart from the rows of the table.

Tests its names and type hints, its errors, arguments of other types, and the values of floats.
Tests the literals that it writes, and the calls of the library in a walk over tokens.
.ci/c_library.py runs these tests over the installed module. The functions yield a fault, or `None`
for a test that passes.
"""
import array
import copy
import ctypes
import dataclasses
import math
import pickle
import types
import typing

READERS = ["parse", "parse_prefix", "goes_on", "tokens"]
NAMES = ["Literal", "ParseError", "Token", "goes_on", "parse", "parse_prefix", "tokens", "version"]
NAMES += ["write_bytes", "write_integer", "write_string"]
# The fields of an error, in the order of its constructor.
FIELDS = ["kind", "span", "message", "is_final", "is_open", "length"]
LARGE = 2 * 10**9
# Values that are not a text: a text is a str, bytes, or a memoryview of bytes in one dimension.
NO_TEXTS = [0, 5, LARGE, -1, True, 1.5, None, [49], (49,), {49}, {}, range(3), object(), bytes]
NO_TEXTS += [array.array("B", b"1"), memoryview(array.array("H", [49]))]
NO_TEXTS += [memoryview(array.array("f", [1])), memoryview(b"1234").cast("B", [2, 2])]
NO_TEXTS += [memoryview(b"1").cast("?"), memoryview((ctypes.c_ushort * 1)(49))]
BYTES = [b"a", bytearray(b"a"), memoryview(b"a")]
# Texts that cannot be encoded as UTF-8, since they have a surrogate.
SURROGATES = ["\ud800", '"\udfff"', "1 \udc80"]
NO_SUFFIXES = ["1", "_", " ", "a b", "a-", '"', "\0", "a\0", "#", "\u200d"]
SUFFIXES = ["", "u8", "a_b", "é", "x"]
STRINGS = ["", "a", "a\nb", "\0", "a\0b", "\"\\'", "\r\n\t", "é\u202e\u200b\U0001f98a", "\x7f\x80"]
INTEGERS = [0, 1, 255, 2**63, 2**64 - 1, 2**64, 2**64 + 1, 2**127, 2**128 - 1]


def raised(error, call, *words):
    """Returns the fault of a call that must raise `error` itself, and not a subclass of it."""
    shown = [hex(it) if type(it) is int else repr(it) for it in words]
    how = f"{call.__name__} of {', '.join(shown):.60}"
    try:
        answer = call(*words)
    except Exception as e:
        return None if type(e) is error and str(e) else f"{how} raises {e!r}, not {error.__name__}"
    return f"{how} returns {answer!r}, and does not raise {error.__name__}"


def faults_of_types(module):
    """Yields a fault for each argument of another type that does not raise TypeError."""
    calls = [getattr(module, it) for it in READERS]
    yield from (raised(TypeError, call, it) for call in calls for it in NO_TEXTS)
    write = {"a": module.write_string, b"a": module.write_bytes, 1: module.write_integer}
    others = {"a": BYTES, b"a": ["a"], 1: ["1", *BYTES]}
    for value, call in write.items():
        wrong = [it for it in NO_TEXTS if value != 1 or type(it) is not int]
        yield from (raised(TypeError, call, it) for it in [*wrong, *others[value]])
        yield from (raised(TypeError, call, value, it) for it in [*NO_TEXTS, *BYTES])


def faults_of_errors(module):
    """Yields a fault for each argument that does not raise the error on the crate's page."""
    writers = [(module.write_string, "a"), (module.write_bytes, b"a"), (module.write_integer, 1)]
    for text in SURROGATES:
        yield from (raised(UnicodeEncodeError, getattr(module, it), text) for it in READERS)
        yield raised(UnicodeEncodeError, module.write_string, text)
        yield from (raised(UnicodeEncodeError, call, value, text) for call, value in writers)
    for text in (b"\xff", b'"\xc3"', bytearray(b"1\x80"), memoryview(b"'\xed\xa0\x80'")):
        yield raised(UnicodeDecodeError, module.parse, text)
        yield raised(UnicodeDecodeError, module.parse_prefix, text)
        yield raised(UnicodeDecodeError, module.tokens, text)
        yield None if module.goes_on(text) is False else f"goes_on({text}) is not False"
    for call, value in writers:
        yield from (raised(ValueError, call, value, it) for it in NO_SUFFIXES)
    yield from (raised(ValueError, module.write_integer, 1, it) for it in ("e", "e1", "E"))
    numbers = [-1, -(2**64), 2**128, 10**5000]
    yield from (raised(OverflowError, module.write_integer, it) for it in numbers)


def faults_of_texts(module):
    """Yields a fault for each text whose result depends on its type, and the faults for empty
    texts, many digits and NUL."""
    for text in (b"0xFF_u8", b'"a\\n"', b"0b12", b"", b"\0", b'"a\0"', b'c"\0"', b"name"):
        spread = bytes(it for byte in text for it in (byte, 0))
        view, own = memoryview(text), type("Own", (bytes,), {"__bytes__": None})
        same = [bytearray(text), own(text), view, view.cast("b"), view.cast("c")]
        same += [memoryview(spread)[::2], memoryview((ctypes.c_ubyte * len(text))(*text))]
        for name in READERS:
            wanted = answer(getattr(module, name), text)
            answers = [answer(getattr(module, name), it) for it in [*same, text.decode()]]
            yield None if answers == [wanted] * 8 else f"{name} of {text}: {answers}, not {wanted}"
    for text in ("", b"", bytearray(), memoryview(b"")):
        yield raised(module.ParseError, module.parse, text)
        found = module.parse_prefix(text), module.goes_on(text), list(module.tokens(text))
        if found != (None, True, []):
            yield f"{text!r} has a prefix or a token, or cannot be continued"
    for prefix, base, digit in (("", 10, "9"), ("0x", 16, "f"), ("0o", 8, "7"), ("0b", 2, "1")):
        for count in (40, 127, 640, 641, 4301, 20_011):
            value = module.parse(f"{prefix}{digit * count}_").value
            yield None if value == base**count - 1 else f"{count} digits in base {base}: {value:x}"
    yield None if module.parse('"\0"').value == "\0" else "a string of a NUL has another value"
    yield None if module.parse_prefix("1\0")[1] == 1 else "a NUL after a literal belongs to it"


FLOATS = {"1_0.5e-1": 1.05, "0.1f32": 0.1, "1.": 1.0, "2e1_x": 20.0, "9007199254740993.0": 2.0**53}
FLOATS.update({"1e400": math.inf, "1__e400_": math.inf, "1e-400": 0.0, "5e-324": 5e-324})


def faults_of_floats(module):
    """Yields a fault for each float literal whose value is not the nearest float, also at the front
    of a text."""
    for text, wanted in FLOATS.items():
        for it in (text, text.encode(), memoryview(text.encode())):
            found = module.parse(it).value, module.parse_prefix(text + " ")[0].value
            if [(type(value), value) for value in found] != [(float, wanted)] * 2:
                yield f"the value of {it!r} is {found}, wanted {wanted}"
        yield None
    found = [type(module.parse(it).value) for it in ("1f32", "0x1f64", "1e1", "b'a'", "true")]
    yield None if found == [int, int, float, int, bool] else f"values have the types {found}"


SOURCE = "let é = b\"\\n\" + 0x1F_u8; // 🦊\n"


class Counted(bytes):
    """Bytes that count how many of them are sliced and how many are decoded."""

    read = 0

    def __getitem__(self, place):
        part = Counted(bytes.__getitem__(self, place))
        Counted.read += len(part)
        return part

    def decode(self, *words):
        Counted.read += len(self)
        return bytes.decode(self, *words)


def walked(module, text):
    """Returns the tokens of a text, and the calls that the walk makes."""
    calls, data, seen = module._calls, module._data, []

    def counted(name):
        return lambda *words: (seen.append((name, *words[1:-1])), calls[name](*words))[1]

    module._calls = {name: counted(name) for name in calls}
    module._data = lambda text: (seen.append("encode"), Counted(data(text)))[1]
    try:
        return list(module.tokens(text)), seen
    finally:
        module._calls, module._data = calls, data


def faults_of_walks(module):
    """Yields a fault for each walk that encodes its source, checks it or reads a byte of it more
    than once. Yields a fault too if tokens change with the source or with another walk."""
    for count in (1, 50, 400):
        for text in (SOURCE * count, (SOURCE * count).encode()):
            Counted.read = 0
            found, seen = walked(module, text)
            size = len(text.encode() if isinstance(text, str) else text)
            wanted = ["encode", ("check", size)] + [("next_token",)] * (len(found) + 1)
            yield None if seen == wanted else f"a walk calls {seen[:9]}, {len(seen)} in all"
            # The bytes are sliced, and those of a str are decoded too.
            times = 2 if isinstance(text, str) else 1
            yield None if Counted.read == times * size else f"a walk reads {Counted.read} bytes"
            same = type(text)().join(it.text for it in found)
            yield None if same == text and len(found) == 15 * count else f"{len(found)} tokens"
    source = bytearray(b"a 0b12 b")
    walk = module.tokens(source)
    first = next(walk)
    source[:] = b"\xff" * len(source)
    rest = [it.text for it in walk]
    yield None if (first.text, rest) == (b"a", [b" ", b"0b12", b" ", b"b"]) else f"{first}, {rest}"
    yield None if next(walk, None) is next(walk, None) is None else "a token after the last"
    walks = [module.tokens(it) for it in ("a b", b"c d")]
    found = ["".join(map(str, (it.text for it in pair))) for pair in zip(*walks)]
    yield None if found == ["ab'c'", " b' '", "bb'd'"] else f"two walks at once: {found}"
    *_, token = module.tokens("é 0b12")
    same = [copy.copy(token), copy.deepcopy(token), pickle.loads(pickle.dumps(token))]
    yield None if same == [token] * 3 else f"copies of a token are {same}"
    made = module.Token("MalformedLiteral", "0b12", 2, 6, False, None)
    yield None if {made} == {token} else f"{made} is not {token}"
    for it in (token, *same):
        error = answer(lambda token: token.literal(), it)
        yield None if error[2]["span"] == (5, 6) and "(at 6..7)" in error[1][0] else f"{error}"


def answer(call, text):
    """Returns the result of a call. For a walk that is the tokens without their texts, and for an
    error its class, arguments and attributes."""
    try:
        found = call(text)
        if type(found) is not types.GeneratorType:
            return found
        return [dataclasses.replace(it, text="") for it in found]
    except ValueError as e:
        return [type(e), e.args, vars(e)]


def faults_of_writers(module):
    """Yields a fault for each value whose written literal is not parsed as the value with the
    suffix."""
    values = [(module.write_string, "String", it) for it in STRINGS]
    values += [(module.write_string, "String", "".join(map(chr, range(0x2100))))]
    numbers = [bytes([it]) for it in range(256)]
    values += [(module.write_bytes, "ByteString", it) for it in [b"", bytes(range(256)), *numbers]]
    values += [(module.write_integer, "Integer", it) for it in INTEGERS]
    for call, kind, value in values:
        for suffix in SUFFIXES:
            text = call(value, suffix)
            found = module.parse(text)
            if (found.kind, found.value, found.suffix) != (kind, value, suffix) or found.is_raw:
                yield f"{call.__name__} of {value!r} and {suffix!r} writes {text!r}"
    for it in INTEGERS:
        yield None if module.write_integer(it) == str(it) else f"{it} is {module.write_integer(it)}"
    same = {module.write_bytes(it) for it in (b"a\0", bytearray(b"a\0"), memoryview(b"a-\0")[::2])}
    yield None if same == {'b"a\\0"'} else f"bytes are written as {same}"


def own_kind(module):
    """Returns a subclass of ParseError whose constructor has other parameters."""

    def __new__(kind, file, error):
        return module.ParseError.__new__(kind)

    def __init__(self, file, error):
        module.ParseError.__init__(self, *[getattr(error, it) for it in FIELDS])
        self.file = file

    own = {"__new__": __new__, "__init__": __init__, "__module__": __name__}
    kind = type("OwnError", (module.ParseError,), own)
    # pickle finds the class by this name.
    globals()["OwnError"] = kind
    return kind


def faults_of_copies(module):
    """Yields a fault for each error and literal that copying or pickling changes."""
    errors, own = [], own_kind(module)
    for text in ("0b12", '"abc', "name", "", b"0xG"):
        try:
            module.parse(text)
        except module.ParseError as e:
            errors += [e, own("file", e)]
    copies = [copy.copy, copy.deepcopy]
    for by in range(pickle.HIGHEST_PROTOCOL + 1):
        copies.append(lambda it, by=by: pickle.loads(pickle.dumps(it, by)))
    for error in errors:
        for number, call in enumerate(copies):
            wanted = [type(error), str(error), error.args, vars(error)]
            try:
                same = call(error)
                found = [type(same), str(same), same.args, vars(same)]
            except Exception as e:
                found = e
            yield None if found == wanted else f"copy {number} is {found}, not {wanted}"
    literal = module.parse('r"a"b')
    same = [copy.copy(literal), copy.deepcopy(literal), pickle.loads(pickle.dumps(literal))]
    yield None if same == [literal] * 3 else f"copies of a literal are {same}"


def faults_of_names(module):
    """Yields a fault for each public name that is not listed, or that lacks type hints or a
    docstring."""
    own = [it for it, value in vars(module).items() if getattr(value, "__module__", "") == "litrs"]
    if sorted(it for it in own if not it.startswith("_")) != NAMES or module.__all__ != NAMES:
        yield f"public are {own}, listed {module.__all__}, wanted {NAMES}"
    for name in NAMES:
        call = getattr(module, name)
        hints = typing.get_type_hints(call)
        if isinstance(call, type):
            wanted = FIELDS if name == "ParseError" else list(call.__dataclass_fields__)
        else:
            wanted = [*call.__code__.co_varnames[: call.__code__.co_argcount], "return"]
        if not set(wanted) <= set(hints) or object in hints.values():
            yield f"{name} has the hints {hints}, wanted for {wanted}"
        yield None if call.__doc__ else f"{name} has no description"


def try_module(module):
    """Returns the number of tests, and the faults."""
    groups = [faults_of_names, faults_of_types, faults_of_errors, faults_of_texts]
    groups += [faults_of_floats, faults_of_writers, faults_of_copies, faults_of_walks]
    found = [it for group in groups for it in group(module)]
    return len(found), [it[:600] for it in found if it]
