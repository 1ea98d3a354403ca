"""How values are spelled in a trace: equal ones alike, different ones differently."""
import numbers
import weakref

LONGEST = 200                                     # bytes of a text that is spelled as it is
SMALL = range(-2**63, 2**63)


class Values:
    """The spellings of one trace. What may change is spelled by itself, with a number that nothing else is given."""

    def __init__(self):
        self.equal, self.itself, self.count = {}, {}, 0

    def spell(self, value):
        """A value of a program: numbers that are equal are one, so `True` is 1."""
        if value is None:
            return "nil"
        kind = type(value)
        if kind is int and value in SMALL:
            return str(value)
        if kind is str and len(value) <= LONGEST and not value.startswith("<"):
            text = value.encode("utf-8", "surrogatepass")
            if len(text) <= LONGEST:
                return quoted(text)
        try:
            if isinstance(value, numbers.Number) and value == int(value) and int(value) in SMALL:
                return str(int(value))
        except (TypeError, ValueError, OverflowError):        # no whole number
            pass
        return self._numbered(value)

    def _numbered(self, value):
        try:
            by_value = type(value).__hash__ is not object.__hash__ and value == value
            found = self.equal.get(value) if by_value else self._by_itself(value)
        except Exception:                         # it can't be hashed or compared: it may change
            by_value, found = False, self._by_itself(value)
        if found is None:
            self.count += 1
            found = self._text(value, self.count)
            if by_value:
                self.equal[value] = found
            else:
                self._keep(value, found)
        return found

    @staticmethod
    def _text(value, number):
        """The beginning of a text or a number, else the type; `<` begins no plain text, so no other value is spelled so."""
        if value is NONE:
            about = "None"
        elif isinstance(value, str):
            about = value[:40]
        elif isinstance(value, (bytes, float, complex)) or isinstance(value, numbers.Number):
            about = f"{type(value).__name__} {value!r}"[:60]
        else:
            about = type(value).__name__[:60]
        return quoted(f"<{number} {about}>".encode("utf-8", "surrogatepass"))

    def _by_itself(self, value):
        known = self.itself.get(id(value))
        return known[1] if known and known[0]() is value else None

    def _keep(self, value, text):
        try:
            at = id(value)
            self.itself[at] = weakref.ref(value, lambda _: self.itself.pop(at, None)), text
        except TypeError:                         # it has no weak references: it is kept, so that no other has its place
            self.itself[id(value)] = (lambda: value), text


def quoted(text):
    """A text of bytes as a trace has it."""
    return '"' + "".join("\\" + chr(b) if b in b'"\\' else chr(b) if 0x20 <= b <= 0x7E else f"\\x{b:02x}" for b in text) + '"'


class Missing:
    """What stands for no value, and what None is where a kind has nil for none."""


MISSING, NONE = Missing(), Missing()


def value_of(value):
    """A value of a dictionary or of a queue, for which nil is none."""
    return NONE if value is None else None if value is MISSING else value


def plain(value):
    """The value again that `value_of` told, none for none."""
    return None if value is NONE else value
