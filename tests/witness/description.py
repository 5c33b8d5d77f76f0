"""Descriptions, read by the rules of docs/formats/description.md: an implementation beside the program's.

`read` gives the tree as written, `derive` fills in what is derived, `unfold` makes lists into elements. It is meant for
descriptions that the program accepts: it looks for no faults.
"""

import re
import xml.etree.ElementTree as ElementTree

NAMED = ("peripheral", "cluster", "register", "field")
NUMBERS = ("dim", "dimIncrement", "baseAddress", "addressOffset", "size", "resetValue", "resetMask")
WORDS = ("access", "modifiedWriteValues", "readAction", "usage", "dimIndex")
CONTAINERS = ("peripherals", "registers", "fields")

KEYWORDS = set("""abstract as async await become box break const continue crate do dyn else enum extern false final fn for
    gen if impl in let loop macro match mod move mut override priv pub ref return self static struct super trait true try
    type typeof unsafe unsized use virtual where while yield Self""".split())
PRELUDE = set("""at at_bit at_index bit bit_is_clear bit_is_set bits clear_bit clear_bit_by_one generic modify new read reset
    set_bit set_bit_by_zero toggle_bit write write_with_zero""".split())


def number(text, loose=False):
    text = text.removeprefix("+")
    for prefix, base in (("0x", 16), ("0X", 16), ("#", 2), ("0b", 2), ("0B", 2)):
        if text.startswith(prefix):
            digits = text.removeprefix(prefix)
            return int(re.sub("[xX]", "0", digits) if loose and base == 2 else digits, base)
    return int(text)


class Element:
    """A device, peripheral, cluster, register, field, set of values, or value."""

    def __init__(self, kind, name=None, keys=None, children=None, derived=None):
        self.kind, self.name, self.keys = kind, name, keys or {}
        self.children, self.derived, self.parent = children or [], derived, None

    def adopt(self):
        for child in self.children:
            child.parent = self
            child.adopt()
        return self

    def copy(self):
        return Element(self.kind, self.name, dict(self.keys), [child.copy() for child in self.children], self.derived)

    def sub(self, *kinds):
        return [child for child in self.children if child.kind in kinds]


def read(text):
    return element(ElementTree.fromstring(text)).adopt()


def element(xml):
    new = Element(xml.tag, derived=xml.get("derivedFrom"))
    for child in xml:
        text = (child.text or "").strip()
        if child.tag == "name":
            new.name = text
        elif child.tag in CONTAINERS:
            new.children += [element(grandchild) for grandchild in child]
        elif child.tag in (*NAMED, "enumeratedValues", "enumeratedValue"):
            new.children.append(element(child))
        elif child.tag in NUMBERS:
            new.keys[child.tag] = number(text)
        elif child.tag in WORDS:
            new.keys[child.tag] = text
        elif child.tag == "value":
            new.keys["value"] = number(text, loose=True)
    if xml.tag == "field":
        set_place({child.tag: (child.text or "").strip() for child in xml}, new.keys)
        if new.derived is None:
            new.keys.setdefault("width", 1)
    new.children = [child for child in new.children if not (child.kind == "field" and child.name.lower() == "reserved")]
    return new


def set_place(texts, keys):
    """Sets a field's offset and width by the first of the forms that stands."""
    if "bitRange" in texts:
        high, low = (int(part) for part in texts["bitRange"].strip("[]").split(":"))
    elif "lsb" in texts and "msb" in texts:
        high, low = number(texts["msb"]), number(texts["lsb"])
    else:
        if "bitOffset" in texts:
            keys["offset"] = number(texts["bitOffset"])
        if "bitWidth" in texts:
            keys["width"] = number(texts["bitWidth"])
        return
    keys["offset"], keys["width"] = low, high - low + 1


# Deriving.

def followed(start, names, kind):
    here = start
    for name in names:
        here = next((child for child in here.children if child.name == name), None)
        if here is None:
            return None
    return here if here.kind == kind else None


def source(of):
    names = of.derived.split(".")
    ancestor = of.parent
    while ancestor is not None:
        found = followed(ancestor, names, of.kind)
        if found is not None:
            return found
        ancestor = ancestor.parent
    if of.kind == "enumeratedValues" and len(names) == 1:
        for field in of.parent.parent.children:
            for values in field.children:
                if values.name == names[0]:
                    return values
    raise ValueError(f"derivedFrom {of.derived} is missing")


def derived(of):
    """The element as it is after its own deriving and that of everything within it."""
    new = Element(of.kind, of.name, dict(of.keys), [derived(child) for child in of.children])
    if of.derived is None:
        return new
    base = derived(source(of))
    for key, value in base.keys.items():
        if key in ("dim", "dimIncrement", "dimIndex") and "%s" not in of.name:
            continue
        new.keys.setdefault(key, value)
    if of.kind == "field" and new.children:
        return new
    own = {child.name: child for child in new.children} if of.kind != "field" else {}
    new.children = [own.pop(child.name, child) for child in base.children] + [
        child for child in new.children if child.name in own]
    return new


def derive(device):
    return derived(device).adopt()


# Unfolding.

def indexes(of):
    count, written = of.keys["dim"], of.keys.get("dimIndex")
    if written is None:
        return [str(k) for k in range(count)]
    if re.fullmatch("[0-9]+-[0-9]+", written):
        first, last = (int(part) for part in written.split("-"))
        return [str(k) for k in range(first, last + 1)]
    if re.fullmatch("[A-Z]-[A-Z]|[a-z]-[a-z]", written):
        return [chr(k) for k in range(ord(written[0]), ord(written[2]) + 1)]
    return re.split(r",\s*", written)


def offset_key(of):
    return {"peripheral": "baseAddress", "field": "offset"}.get(of.kind, "addressOffset")


def is_array(of):
    return of.name is not None and of.name.endswith("[%s]") and of.kind != "peripheral"


def unfold(of):
    return unfolded(of)[0].adopt()


def unfolded(of):
    children = [new for child in of.children for new in unfolded(child)]
    if of.kind not in NAMED or "dim" not in of.keys or is_array(of):
        return [Element(of.kind, of.name, dict(of.keys), children)]
    step = of.keys.get("dimIncrement", 0)
    members = []
    for k, index in enumerate(indexes(of)):
        name = of.name.replace("[%s]", index) if "[%s]" in of.name else of.name.replace("%s", index)
        member = Element(of.kind, name, dict(of.keys), [child.copy() for child in children])
        member.keys[offset_key(of)] += k * step
        for key in ("dim", "dimIncrement", "dimIndex"):
            member.keys.pop(key, None)
        members.append(member)
    return members


# Names.

def taken(name, names):
    if name[0].isdigit():
        name = "_" + name
    return name + "_" if name in names or name == "_" or name.startswith("_reserved") else name


def accessor(of):
    return taken(of.name.removesuffix("[%s]").lower(), KEYWORDS | PRELUDE)


def slot(of):
    name = of.name
    if name[0].isdigit():
        name = "_" + name
    return name + "_" if name in KEYWORDS or name == "_" else name


def marker(of):
    name = of.name.removesuffix("[%s]")
    return ("_" if name[0].isdigit() else "") + name + "_F"


def call_text(value):
    return re.sub("[^A-Za-z0-9_]", "_", value.name).lower()


# Properties.

def nearest(of, key, default=None):
    while of is not None and of.kind != "field":
        if key in of.keys:
            return of.keys[key]
        of = of.parent
    return default


class Register:
    """What holds of a register element."""

    def __init__(self, of):
        size = nearest(of, "size", 32)
        self.width = next(width for width in (8, 16, 32, 64) if size <= width)
        fields = of.sub("field")
        access = nearest(of, "access")
        if access is None:
            stated = [field.keys.get("access") for field in fields]
            access = "read-write"
            if fields and all(word == "read-only" for word in stated):
                access = "read-only"
            elif fields and all(word in ("write-only", "writeOnce") for word in stated):
                access = "write-only"
        self.readable = access in ("read-only", "read-write", "read-writeOnce")
        self.writable = access != "read-only"
        top = 1 << self.width
        self.reset = nearest(of, "resetValue", 0) % top & nearest(of, "resetMask", top - 1) % top
        self.fields = [Field(field, self, of) for field in fields]
        self.one = self.mask("oneTo")
        self.zero = self.mask("zeroTo")

    def mask(self, prefix):
        mask = 0
        for field in self.fields:
            if field.writable and field.kind.startswith(prefix):
                for k in range(field.count or 1):
                    mask |= field.ones << field.at(k)
        return mask

    def start(self, word):
        return word & ~self.one | self.zero


class Field:
    def __init__(self, of, register, parent):
        self.name, self.marker = accessor(of), marker(of)
        self.offset, self.width = of.keys["offset"], of.keys.get("width", 1)
        self.count = of.keys["dim"] if is_array(of) else None
        self.step = of.keys.get("dimIncrement", 0)
        access = of.keys.get("access")
        self.readable = register.readable and access not in ("write-only", "writeOnce")
        self.writable = register.writable and access != "read-only"
        self.kind = of.keys.get("modifiedWriteValues") or parent.keys.get("modifiedWriteValues", "modify")
        self.ones = (1 << self.width) - 1
        self.is_calls = self.calls(of, "read", lambda value: "is_" + call_text(value))
        self.set_calls = self.calls(of, "write", lambda value: taken(call_text(value), KEYWORDS | PRELUDE))

    def at(self, index):
        return self.offset + self.step * (index or 0)

    def calls(self, of, usage, name):
        calls = {}
        for values in of.children:
            if values.keys.get("usage", "read-write") in (usage, "read-write"):
                for value in values.children:
                    if value.keys.get("value") is not None and value.keys["value"] <= self.ones:
                        calls.setdefault(name(value), value.keys["value"])
                break
        return calls
