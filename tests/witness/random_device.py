"""Descriptions and scripts made at random, such that the program accepts the one and the other types against it."""

import xml.sax.saxutils as saxutils

from crate_text import value_type
from description import Element, Register, accessor, derive, is_array, read, slot, unfold

LETTERS = "ABCDEFGHIJKLMNOPQRSTUVWXYZabcdefghijklmnopqrstuvwxyz0123456789_"
# Names that Rust, its libraries or the crate text use in other places.
ODD = """type READ at_bit AT Self self crate u8 U16 usize BOOL Spec R W Reg Periph RegisterBlock Peripherals core std alloc
    CLONE into_iter next map to_owned to_string fmt eq cmp hash drop default as_ref as_mut borrow borrow_mut deref ptr steal
    INTO TRY_INTO from try_from F N S n w r a String Option None Some Vec str main test union auto raw dyn async gen
    _reserved0 _ __ 1 0x1F 9LIVES static_ x_F generic recording Word""".split()
VALUES = ODD + ["a b", "+1", "x&y", "1/2", "On", "ON", "Off", "bits", "SET_BIT", "a-b", "a+b"]
ACCESSES = ["read-only", "write-only", "read-write", "writeOnce", "read-writeOnce"]
KINDS = ["oneToClear", "oneToSet", "oneToToggle", "zeroToClear", "zeroToSet", "zeroToToggle", "clear", "set", "modify"]
HIDDEN = ("into", "try_into")


def tag(name, content):
    return f"<{name}>{content}</{name}>"


def number(rng, value):
    return rng.choice([f"{value}", f"{value:#x}", f"0X{value:X}", f"#{value:b}", f"+{value}"])


class Maker:
    def __init__(self, rng, deriving, arrays):
        self.rng, self.deriving, self.marks = rng, deriving, ["", "", "", "%s"] + ["[%s]"] * arrays

    def maybe(self, chance):
        return self.rng.random() < chance

    def name(self, kind, used, mark=""):
        while True:
            if self.maybe(0.3):
                name = self.rng.choice(ODD)
            else:
                name = "".join(self.rng.choice(LETTERS) for _ in range(self.rng.randint(1, 6)))
            members = [accessor(Element(kind, name))]
            if mark == "%s":
                members = [accessor(Element(kind, name + str(k))) for k in range(20)]
            # A name may not be `reserved` for a field, nor equal a sibling's.
            if name.lower() == "reserved" or any(member in used for member in members):
                continue
            used.update(members)
            return name + mark

    def props(self):
        keys = ""
        if self.maybe(0.3):
            keys += tag("access", self.rng.choice(ACCESSES))
        if self.maybe(0.5):
            keys += tag("resetValue", number(self.rng, self.rng.getrandbits(self.rng.choice([4, 16, 64]))))
        if self.maybe(0.2):
            keys += tag("resetMask", number(self.rng, self.rng.getrandbits(64)))
        return keys

    def device(self):
        used, made, sources = set(), "", []
        base = self.rng.choice([0x40000000, 0x1000, 0x8, 0x7fff_0000_0000_0000, 0xfff0_0000_0000_0000])
        for _ in range(self.rng.randint(0, 4)):
            base += 8 * self.rng.randint(0, 0x10000)
            mark = "" if self.maybe(0.8) else "%s"
            name = self.name("peripheral", used, mark)
            keys = tag("name", name) + tag("baseAddress", number(self.rng, base)) + self.props()
            attribute, inner = self.source(sources)
            if mark:
                keys += self.dim(8, attribute)
            if not attribute or self.maybe(0.3):
                keys += tag("registers", self.children(0, 64, inner))
            sources.append((name, inner))
            made += f"<peripheral{attribute}>{keys}</peripheral>"
        return tag("device", tag("name", "RANDOM") + self.props() + tag("peripherals", made))

    def source(self, sources):
        """The attribute of a derived element, or none, and the names that its children have from its source."""
        if self.deriving and sources and self.maybe(0.4):
            name, used = self.rng.choice(sources)
            return f' derivedFrom="{name}"', set(used)
        return "", set()

    def dim(self, unit, derived):
        """The keys of a dimension. A derived element states its indexes, since its source's may be too many."""
        count = self.rng.randint(1, 5)
        keys = tag("dim", count) + tag("dimIncrement", number(self.rng, unit * self.rng.randint(0, 4)))
        if derived or self.maybe(0.4):
            first = self.rng.randint(0, 9)
            keys += tag("dimIndex", f"{first}-{first + count - 1}")
        return keys

    def children(self, depth, widest, used):
        """Registers and clusters. They are as wide as `widest` at most, and so aligned that their parent may stand at each of
        its multiples."""
        made, offset, sources = "", 0, {}
        for _ in range(self.rng.randint(0 if depth else 1, 6)):
            mark = self.rng.choice(["", "", "", "", "[%s]", "%s"])
            kind = "cluster" if depth < 3 and self.maybe(0.2) else "register"
            unit = self.rng.choice([width for width in (8, 16, 32, 64) if width <= widest])
            if self.maybe(0.1):
                offset = self.rng.choice([0, 0, 0x100000000])
            offset += self.rng.choice([0, 0, 0, 1, 3, 20])
            offset += -offset % (unit // 8)
            name = self.name(kind, used, mark)
            keys = tag("name", name) + tag("addressOffset", number(self.rng, offset)) + self.props()
            # The source is as wide, so that the alignment is right.
            attribute, inner = self.source(sources.setdefault((kind, unit), []))
            if mark:
                keys += self.dim(unit // 8, attribute)
            sources[kind, unit].append((name, inner))
            if kind == "cluster":
                if not attribute or self.maybe(0.3):
                    keys += self.children(depth + 1, unit, inner)
                offset += 16
            else:
                size = {8: [1, 7, 8], 16: [9, 12, 16], 32: [17, 24, 32], 64: [33, 48, 64]}[unit]
                keys += "" if attribute and self.maybe(0.5) else tag("size", self.rng.choice(size))
                keys += tag("modifiedWriteValues", self.rng.choice(KINDS)) if self.maybe(0.2) else ""
                if self.maybe(0.8 - 0.5 * bool(attribute)):
                    keys += tag("fields", self.fields(unit, inner))
                offset += unit // 8
            made += f"<{kind}{attribute}>{keys}</{kind}>"
        return made

    def fields(self, width, used):
        made, sources, sets = "", [], []
        for _ in range(self.rng.randint(0, 6)):
            offset = self.rng.randrange(width)
            wide = 1 if self.maybe(0.4) else self.rng.randint(1, width - offset)
            if self.maybe(0.05):
                offset, wide = 0, width
            mark = self.rng.choice(self.marks)
            name = self.name("field", used, mark)
            keys = tag("name", name)
            if mark:
                room = (width - offset - wide) // 2
                step = self.rng.randint(0, room)
                keys += tag("dim", self.rng.choice([1, 2, 3])) + tag("dimIncrement", step)
            high = offset + wide - 1
            keys += self.rng.choice([
                tag("bitRange", f"[{high}:{offset}]"), tag("lsb", offset) + tag("msb", high),
                tag("bitOffset", number(self.rng, offset)) + tag("bitWidth", number(self.rng, wide))])
            if self.maybe(0.3):
                keys += tag("access", self.rng.choice(ACCESSES))
            if self.maybe(0.5):
                keys += tag("modifiedWriteValues", self.rng.choice(KINDS))
            attribute, _ = self.source(sources)
            if not attribute or self.maybe(0.2):
                for usage in self.rng.choice([[], [], [""], ["read", "write"], ["read-write", "read"]]):
                    keys += self.values(usage, wide, sets)
            sources.append((name, ()))
            made += f"<field{attribute}>{keys}</field>"
        return made

    def values(self, usage, wide, sets):
        """A set of values; `sets` are the names of those before it in its register."""
        made = tag("usage", usage) if usage else ""
        attribute, _ = self.source(sets)
        if self.maybe(0.5):
            sets.append((f"SET{len(sets)}", ()))
            made += tag("name", sets[-1][0])
        for name in self.rng.sample(VALUES, self.rng.randint(0, 5)):
            value = self.rng.getrandbits(self.rng.randint(1, wide + 1))
            content = tag("name", saxutils.escape(name))
            if self.maybe(0.1):
                content += tag("isDefault", "true")
            else:
                content += tag("value", number(self.rng, value % 2 ** 64))
            made += tag("enumeratedValue", content)
        return f"<enumeratedValues{attribute}>{made}</enumeratedValues>"


class Script:
    """A script against an unfolded device."""

    def __init__(self, rng, device):
        self.rng, self.bound, self.lines, self.slots = rng, {}, [], {slot(p) for p in device.children}
        self.places = []
        for peripheral in device.children:
            self.gather(slot(peripheral), peripheral, top=True)

    def gather(self, path, of, top=False):
        for child in of.children:
            name = accessor(child)
            if top and name in HIDDEN:
                continue
            indexes = [f"{k}" for k in range(min(child.keys["dim"], 3))] if is_array(child) else [""]
            for index in indexes:
                step = f"{path}.{name}({index})"
                if child.kind == "register":
                    self.places.append((step, Register(child)))
                else:
                    self.gather(step, child)

    def text(self, count):
        for _ in range(count if self.places else 0):
            self.statement()
        return "".join(line + "\n" for line in self.lines)

    def statement(self):
        path, it = self.rng.choice(self.places)
        choices = ["say"] if self.bound else []
        choices += ["read"] * 2 if it.readable else []
        choices += ["write", "write", "write_with_zero", "reset"] if it.writable else []
        choices += ["modify"] * 3 if it.readable and it.writable else []
        if not choices:
            return
        method = self.rng.choice(choices)
        if method == "read":
            name = f"v{len(self.bound)}"
            if name not in self.slots:
                self.lines.append(f"let {name} = {path}.read();")
                self.bound[name] = it
        elif method == "say":
            self.lines.append(f"say({self.anything()});")
        elif method == "reset":
            self.lines.append(f"{path}.reset();")
        elif method == "modify":
            head = self.rng.choice(["|r, w|", "|_, w|"])
            inner = {**self.bound, "r": it} if head == "|r, w|" else self.bound
            self.lines.append(f"{path}.modify({head} {self.chain(it, inner)});")
        else:
            self.lines.append(f"{path}.{method}(|w| {self.chain(it, self.bound)});")

    def chain(self, it, bound):
        links = "w"
        fields = [field for field in it.fields if field.writable]
        for _ in range(self.rng.randint(0, 4)):
            if not fields or self.rng.random() < 0.1:
                links += f".bits({self.numeric(it.width, bound)})"
                continue
            field = self.rng.choice(fields)
            links += f".{field.name}({self.index(field)})."
            calls = [f"{name}()" for name in field.set_calls]
            if field.width == 1:
                calls += [f"bit({self.truth(bound)})"]
                calls += [f"{name}()" for name in {
                    "oneToSet": ["set_bit"], "zeroToClear": ["clear_bit"], "oneToClear": ["clear_bit_by_one"],
                    "zeroToSet": ["set_bit_by_zero"], "oneToToggle": ["toggle_bit"], "zeroToToggle": ["toggle_bit"],
                }.get(field.kind, ["set_bit", "clear_bit"])]
            else:
                calls += [f"bits({self.numeric(int(value_type(field)[1:]), bound)})"] * 2
            links += self.rng.choice(calls)
        return links

    def index(self, field):
        return "" if field.count is None else f"{self.rng.randrange(field.count)}"

    def sources(self, bound):
        """The sources that can be written down: text, and "bool" or the bits of a number."""
        for name, it in bound.items():
            yield f"{name}.bits()", it.width
            for field in it.fields:
                if not field.readable or (field.name in HIDDEN and name != "r"):
                    continue
                call = f"{name}.{field.name}({self.index(field)})"
                for method in ["bit", "bit_is_set", "bit_is_clear"] if field.width == 1 else []:
                    yield f"{call}.{method}()", "bool"
                for method in field.is_calls:
                    yield f"{call}.{method}()", "bool"
                if field.width > 1:
                    yield f"{call}.bits()", int(value_type(field)[1:])

    def numeric(self, bits, bound):
        sources = list(self.sources(bound))
        numbers = [(text, kind) for text, kind in sources if kind != "bool"]
        if numbers and self.rng.random() < 0.5:
            text, kind = self.rng.choice(numbers)
            return text if kind == bits else f"{text} as u{bits}"
        value = self.rng.getrandbits(self.rng.randint(1, bits))
        return self.rng.choice([f"{value}", f"{value:#x}", f"0x{value:_x}"])

    def truth(self, bound):
        truths = [text for text, kind in self.sources(bound) if kind == "bool"] + ["true", "false"]
        return "!" * self.rng.choice([0, 0, 1, 2]) + self.rng.choice(truths)

    def anything(self):
        text, kind = self.rng.choice(list(self.sources(self.bound)))
        if kind == "bool":
            return "!" * self.rng.choice([0, 0, 1]) + text
        return text if self.rng.random() < 0.7 else f"{text} as u{self.rng.choice([8, 16, 32, 64])}"


def case(rng, deriving, arrays):
    """A description's text and a script's; `deriving` lets elements be derived, `arrays` lets fields be arrays."""
    text = Maker(rng, deriving, arrays).device()
    return text, Script(rng, unfold(derive(read(text)))).text(20)
