"""Patches, read and applied by the rules of docs/formats/patch.md: an implementation beside the program's, for patches that it
accepts."""

import re

from description import NUMBERS, WORDS, Element, number, offset_key, set_place


# The text.

def read_block(text):
    """Mappings as dicts, lists as lists, scalars as texts, nothing as None."""
    lines = []
    for line in text.splitlines():
        line = re.sub(r"""^((?:[^'"#]|'[^']*'|"[^"]*"|(?<! )#)*?)( #.*)?$""", r"\1", line).rstrip()
        if line.strip() and not line.lstrip().startswith("#") and line != "---":
            lines.append((len(line) - len(line.lstrip()), line.strip()))
    return block(lines, 0)[0] if lines else None


def block(lines, at):
    """The mapping or list that begins at a line, and the line after it."""
    indent = lines[at][0]
    if lines[at][1].startswith("- "):
        items = []
        while at < len(lines) and lines[at][0] == indent and lines[at][1].startswith("- "):
            items.append(flow(lines[at][1][2:].strip()))
            at += 1
        return items, at
    entries = {}
    while at < len(lines) and lines[at][0] == indent and not lines[at][1].startswith("- "):
        key, value = re.fullmatch(r"""('[^']*'|"[^"]*"|[^:]*):(?: +(.*))?""", lines[at][1]).groups()
        at += 1
        if value:
            entries[scalar(key)] = flow(value)
        elif at < len(lines) and (lines[at][0] > indent or lines[at][0] == indent and lines[at][1].startswith("- ")):
            entries[scalar(key)], at = block(lines, at)
        else:
            entries[scalar(key)] = None
    return entries, at


def flow(text):
    if text[0] in "[{" and text[-1] in "]}":
        parts = [part.strip() for part in text[1:-1].split(",") if part.strip()]
        if text[0] == "[":
            return [scalar(part) for part in parts]
        return {scalar(key): scalar(value.strip()) for key, value in (part.split(":", 1) for part in parts)}
    return scalar(text)


def scalar(text):
    if text[:1] == "'":
        return text[1:-1].replace("''", "'")
    if text[:1] == '"':
        return re.sub(r"\\(.)", lambda m: {"n": "\n", "t": "\t"}.get(m[1], m[1]), text[1:-1])
    return text


# Patterns.

def matches(pattern, name):
    return any(re.fullmatch(alternative(part.strip()), name) for part in pattern.split(","))


def alternative(text):
    items = re.findall(r"\[%s\]|\[[^]]*\]|.", text)
    words = {"*": ".*", "?": ".", "[%s]": re.escape("[%s]")}
    return "".join(words.get(item) or (item if item[0] == "[" else re.escape(item)) for item in items)


def children(of):
    kinds = {"device": ["peripheral"], "register": ["field"], "field": []}.get(of.kind, ["register", "cluster"])
    return of.sub(*kinds)


def matching(of, pattern):
    found = [child for child in children(of) if matches(pattern, child.name)]
    assert found, f"{pattern} matches nothing"
    return found


# The commands.

def patched(device, text):
    apply([device], read_block(text) or {})
    return device.adopt()


def listed(value):
    return [] if value is None else value if isinstance(value, list) else [value]


def apply(parents, mapping):
    """The commands of one mapping, in their order, each on every opened parent."""
    for pattern in listed(mapping.get("_delete")):
        for parent in parents:
            gone = {id(child) for child in matching(parent, pattern)}
            parent.children = [child for child in parent.children if id(child) not in gone]
    for name, keys in (mapping.get("_copy") or {}).items():
        for parent in parents:
            new = next(child for child in children(parent) if child.name == keys["from"]).copy()
            new.name = name
            set_keys(new, {key: value for key, value in keys.items() if key != "from"})
            parent.children.append(new)
    for pattern, keys in (mapping.get("_modify") or {}).items():
        for parent in parents:
            if parent.kind == "device" and pattern in ("name", "size", "access", "resetValue", "resetMask"):
                set_keys(parent, {pattern: keys})
                continue
            for child in matching(parent, pattern):
                set_keys(child, keys or {})
    for name, keys in (mapping.get("_add") or {}).items():
        for parent in parents:
            parent.children.append(added(parent, name, keys or {}))
    for prefix in listed(mapping.get("_strip")):
        for parent in parents:
            for child in children(parent):
                rest = child.name.removeprefix(prefix)
                if re.fullmatch(r"[A-Za-z0-9_]*(%s)?[A-Za-z0-9_]*|[A-Za-z0-9_]+\[%s\]", rest) and rest:
                    child.name = rest
    for pattern, keys in (mapping.get("_array") or {}).items():
        for parent in parents:
            array(parent, pattern, (keys or {}).get("name"))
    for pattern, inner in mapping.items():
        if not pattern.startswith("_"):
            apply([child for parent in parents for child in matching(parent, pattern)], inner or {})


def set_keys(of, keys):
    for key, text in keys.items():
        if key == "name":
            of.name = text
        elif key == "derivedFrom":
            of.derived = text
        elif key in NUMBERS:
            of.keys[key] = number(text)
        elif key in WORDS:
            of.keys[key] = text
    if of.kind == "field":
        set_place(keys, of.keys)


def added(parent, name, keys):
    kind = {"device": "peripheral", "register": "field"}.get(parent.kind, "register")
    new = Element(kind, name)
    set_keys(new, keys)
    for inner, inner_keys in {**(keys.get("registers") or {}), **(keys.get("fields") or {})}.items():
        new.children.append(added(new, inner, inner_keys or {}))
    if kind == "field" and new.derived is None:
        new.keys.setdefault("width", 1)
    return new


def array(parent, pattern, name):
    members = [child for child in children(parent) if matches(pattern, child.name) and "dim" not in child.keys]
    assert members, f"{pattern} matches nothing"
    key = offset_key(members[0])
    ordered = sorted(members, key=lambda member: member.keys.get(key, 0))
    steps = {after.keys.get(key, 0) - before.keys.get(key, 0) for before, after in zip(ordered, ordered[1:])}
    assert len(steps) <= 1 and 0 not in steps, f"{pattern} has an uneven step"
    first = ordered[0]
    first.name = name or re.sub(r"\*|\?|\[[^]]*\]", "", pattern, count=1).strip() + "[%s]"
    first.keys["dim"], first.keys["dimIncrement"] = len(members), steps.pop() if steps else 0
    place = next(at for at, child in enumerate(parent.children) if child is members[0])
    gone = {id(member) for member in members}
    parent.children = [first if at == place else child for at, child in enumerate(parent.children)
                       if at == place or id(child) not in gone]


