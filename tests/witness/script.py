"""What a script does, by the rules of docs/formats/script.md, over the registers of a description and not over its crate
text: an implementation beside the program's. It is meant for scripts that type."""

import re

from description import Register, accessor, is_array, slot

WORD = re.compile(r"[A-Za-z0-9_]+|[^\sA-Za-z0-9_]")
METHODS = {"set_bit": 1, "clear_bit": 0, "clear_bit_by_one": 1, "set_bit_by_zero": 0}


class Bus:
    """Answers reads and keeps events. `answers` is "zero", "memory", or a list of numbers."""

    def __init__(self, answers):
        self.answers, self.bytes, self.lines, self.reads, self.presets = answers, {}, [], 0, {}

    def preset(self, path, address, it):
        if path not in self.presets:
            self.presets[path] = (address, it.width, it.reset)
            self.put(address, it.width, it.reset)

    def put(self, address, width, value):
        for k in range(width // 8):
            self.bytes[address + k] = value >> 8 * k & 0xff

    def read(self, address, width):
        value = 0
        if self.answers == "memory":
            value = sum(self.bytes.get(address + k, 0) << 8 * k for k in range(width // 8))
        elif self.answers != "zero" and self.reads < len(self.answers):
            value = self.answers[self.reads] % (1 << width)
        self.reads += 1
        self.lines.append(f"read 0x{address:08x} {width} 0x{value:0{width // 4}x}")
        return value

    def write(self, address, width, value):
        self.put(address, width, value)
        self.lines.append(f"write 0x{address:08x} {width} 0x{value:0{width // 4}x}")


class Words:
    def __init__(self, line):
        self.words, self.next = WORD.findall(line.split("//")[0]), 0

    def peek(self, ahead=0):
        at = self.next + ahead
        return self.words[at] if at < len(self.words) else None

    def take(self, *wanted):
        word = self.peek()
        if wanted and word not in wanted:
            raise ValueError(f"{word} where {' or '.join(wanted)} is wanted, in {' '.join(self.words)}")
        self.next += 1
        return word

    def call(self):
        """`.name(` and a number or nothing and `)`: the name and the index."""
        self.take(".")
        name = self.take()
        self.take("(")
        index = None if self.peek() == ")" else int(self.take().replace("_", ""), 0)
        self.take(")")
        return name, index


def events(device, script, answers):
    """The lines that the script prints, and the presets as (address, width, word): a register's reset word, once, in the order
    of first calls. They are made before the script runs."""
    bus = Bus(answers)
    statements = [line for line in script.splitlines() if WORD.findall(line.split("//")[0])]
    for line in statements:
        words = Words(line)
        if words.peek() == "say":
            continue
        if words.peek() == "let":
            words.next = 3
        first = words.next
        address, it = register(device, words)
        bus.preset(tuple(words.words[first:words.next]), address, it)
    bound = {}
    for line in statements:
        statement(device, Words(line), bound, bus)
    return bus.lines, list(bus.presets.values())


def register(device, words):
    """The place that a statement calls: its address and its register."""
    name = words.take()
    here = next(p for p in device.sub("peripheral") if slot(p) == name)
    address = here.keys["baseAddress"]
    while here.kind != "register":
        name, index = words.call()
        here = next(child for child in here.sub("register", "cluster") if accessor(child) == name)
        assert (index is not None) == is_array(here) and (index is None or index < here.keys["dim"])
        address += here.keys["addressOffset"] + (index or 0) * here.keys.get("dimIncrement", 0)
    return address, Register(here)


def statement(device, words, bound, bus):
    if words.peek() == "say":
        words.next = 2
        said = value(words, bound)
        bus.lines.append(f"say {str(said).lower()}")
        return
    name = None
    if words.peek() == "let":
        words.take()
        name = words.take()
        words.take("=")
    address, it = register(device, words)
    words.take(".")
    method = words.take("read", "write", "write_with_zero", "modify", "reset")
    words.take("(")
    if method == "read":
        bound[name] = (it, bus.read(address, it.width))
    elif method == "reset":
        bus.write(address, it.width, it.reset)
    elif method == "modify":
        words.take("|")
        read = words.take("r", "_")
        words.take(",")
        word = bus.read(address, it.width)
        inner = {**bound, "r": (it, word)} if read == "r" else bound
        bus.write(address, it.width, chain(words, it, it.start(word), inner))
    else:
        words.take("|")
        bus.write(address, it.width, chain(words, it, it.start(it.reset) if method == "write" else 0, bound))
    assert words.words[words.next:] == [")", ";"], words.words


def chain(words, it, word, bound):
    words.take("w")
    words.take("|")
    words.take("w")
    while words.peek() == ".":
        if words.peek(1) == "bits":
            words.next += 3
            word = value(words, bound)
            words.take(")")
            continue
        name, index = words.call()
        field = next(field for field in it.fields if field.writable and field.name == name)
        words.take(".")
        method = words.take()
        words.take("(")
        if method in ("bits", "bit"):
            put = int(value(words, bound))
        elif method in field.set_calls:
            put = field.set_calls[method]
        elif method == "toggle_bit":
            put = int(field.kind == "oneToToggle")
        else:
            put = METHODS[method]
        words.take(")")
        at = place(field, index)
        word = word & ~(field.ones << at) | (put & field.ones) << at
    return word


def place(field, index):
    assert (index is not None) == (field.count is not None) and (index is None or index < field.count)
    return field.at(index)


def value(words, bound):
    if words.peek() == "!":
        words.take()
        return not value(words, bound)
    word = words.take()
    if word in ("true", "false"):
        return word == "true"
    if word[0].isdigit():
        return int(word.replace("_", ""), 16 if word.startswith("0x") else 10)
    it, read = bound[word]
    name, index = words.call()
    if name == "bits":
        found = read
    else:
        field = next(field for field in it.fields if field.readable and field.name == name)
        held = read >> place(field, index) & field.ones
        method, _ = words.call()
        if method in ("bit", "bit_is_set"):
            found = bool(held)
        elif method == "bit_is_clear":
            found = not held
        else:
            found = held if method == "bits" else held == field.is_calls[method]
    if words.peek() == "as":
        words.take()
        found %= 1 << int(words.take().removeprefix("u"))
    return found
