"""The crate text of a description, printed by the rules of docs/formats/crate_text.md: an implementation beside the
program's. `printed` takes the unfolded description."""

from description import Register, accessor, is_array, slot

WRITERS = {"oneToSet": "BitWriter1S", "zeroToClear": "BitWriter0C", "oneToClear": "BitWriter1C", "zeroToSet": "BitWriter0S",
           "oneToToggle": "BitWriter1T", "zeroToToggle": "BitWriter0T"}


class Layout:
    """Where the children of a block stand: by child its body's form, and the block's size and alignment."""

    def __init__(self, block):
        self.fields, self.bodies, self.align, end, gaps = [], {}, 1, 0, 0
        for child in sorted(block.sub("register", "cluster"), key=lambda child: child.keys["addressOffset"]):
            offset, name = child.keys["addressOffset"], accessor(child)
            count = child.keys["dim"] if is_array(child) else None
            stride = child.keys.get("dimIncrement", 0)
            size, align = extent(child)
            kind = f"Reg<{name}::Spec>" if child.kind == "register" else f"{name}::RegisterBlock"
            if offset >= end and offset % align == 0 and (count in (None, 1) or stride == size):
                if offset > end:
                    self.fields.append(f"_reserved{gaps}: [u8; {offset - end}],")
                    gaps += 1
                self.fields.append(f"{name}: {kind}," if count is None else f"{name}: [{kind}; {count}],")
                body = f"&self.{name}" if count is None else f"&self.{name}[n]"
                end, self.align = offset + size * (count or 1), max(align, self.align)
            elif count is None:
                body = f"at(self, {offset:#x})"
            else:
                body = f"at_index(self, {offset:#x}, {stride}, {count}, n)"
            index = "" if count is None else ", n: usize"
            self.bodies[name] = f"pub fn {name}(&self{index}) -> &{kind} {{ {body} }}"
        self.size = -(-end // self.align) * self.align


def extent(child):
    if child.kind == "register":
        return Register(child).width // 8, Register(child).width // 8
    layout = Layout(child)
    return layout.size, layout.align


def indented(lines):
    return ["    " + line for line in lines]


def braces(head, lines):
    return [head + " {", *indented(lines), "}"]


def printed(device):
    peripherals = device.sub("peripheral")
    registers = [Register(child) for child in below(device) if child.kind == "register"]
    lines = ["pub const CRATE_TEXT: u32 = 0x2;"] if any(f.count is not None for r in registers for f in r.fields) else []
    lines += ["use crate::generic::*;", ""]
    lines += braces("pub struct Peripherals", [
        f"pub {slot(p)}: Periph<{accessor(p)}::RegisterBlock, {p.keys['baseAddress']:#x}>," for p in peripherals])
    for peripheral in peripherals:
        lines += ["", *block(peripheral)]
    return "".join(line + "\n" for line in lines)


def below(of):
    for child in of.children:
        yield child
        yield from below(child)


def block(of):
    layout, children = Layout(of), of.sub("register", "cluster")
    lines = ["use crate::generic::*;", "#[repr(C)]"]
    lines += braces("pub struct RegisterBlock", layout.fields)
    lines += braces("impl RegisterBlock", [layout.bodies[accessor(child)] for child in children])
    for child in children:
        lines += register(child) if child.kind == "register" else block(child)
    return braces(f"pub mod {accessor(of)}", lines)


def register(of):
    it = Register(of)
    word = f"u{it.width}"
    lines = ["use crate::generic::*;", "pub struct Spec;", f"impl RegisterSpec for Spec {{ type Ux = {word}; }}"]
    if it.readable:
        lines.append("impl Readable for Spec {}")
    if it.writable:
        lines.append(f"impl Writable for Spec {{ const ZERO_TO_MODIFY: {word} = {it.zero:#x}; "
                     f"const ONE_TO_MODIFY: {word} = {it.one:#x}; }}")
    lines.append(f"impl Resettable for Spec {{ const RESET_VALUE: {word} = {it.reset:#x}; }}")
    lines += [f"pub struct {field.marker};" for field in it.fields]
    if it.readable:
        lines += braces("impl R<Spec>", [reader(field) for field in it.fields if field.readable])
    if it.writable:
        lines += braces("impl W<Spec>", [writer(field) for field in it.fields if field.writable])
    for field in it.fields:
        if field.readable and field.is_calls:
            lines += braces(f"impl {reader_type(field)}", [
                f"pub fn {name}(&self) -> bool {{ self.{asked(field)}() == {literal(field, value)} }}"
                for name, value in field.is_calls.items()])
        if field.writable and field.set_calls:
            lines += braces(f"impl<'a> {writer_type(field, chr(39) + 'a')}", [
                f"pub fn {name}(self) -> &'a mut W<Spec> {{ self.{asked(field)}({literal(field, value)}) }}"
                for name, value in field.set_calls.items()])
    return braces(f"pub mod {accessor(of)}", lines)


def asked(field):
    return "bit" if field.width == 1 else "bits"


def literal(field, value):
    return ("true" if value else "false") if field.width == 1 else f"{value:#x}"


def value_type(field):
    return next(f"u{width}" for width in (8, 16, 32, 64) if field.width <= width)


def reader_type(field):
    return f"BitReader<{field.marker}>" if field.width == 1 else f"FieldReader<{field.marker}, {value_type(field)}>"


def writer_type(field, life):
    if field.width == 1:
        return f"{WRITERS.get(field.kind, 'BitWriter')}<{life}, Spec, {field.marker}>"
    return f"FieldWriter<{life}, Spec, {field.marker}, {value_type(field)}, {field.width}>"


def spot(field):
    return f"{field.offset}" if field.count is None else f"at_bit({field.offset}, {field.step}, {field.count}, n)"


def index(field):
    return "" if field.count is None else ", n: usize"


def reader(field):
    bits = f"((self.bits >> {spot(field)}) & {field.ones:#x})"
    body = f"BitReader::new({bits} != 0x0)" if field.width == 1 else f"FieldReader::new({bits} as {value_type(field)})"
    return f"pub fn {field.name}(&self{index(field)}) -> {reader_type(field)} {{ {body} }}"


def writer(field):
    kind = writer_type(field, "'_")
    return f"pub fn {field.name}(&mut self{index(field)}) -> {kind} {{ {kind.split('<')[0]}::new(self, {spot(field)}) }}"
