#!/usr/bin/env python3
"""What the library's interface is, for whoever declares it in another language: bindings/interface.py [--cffi|--lua|TABLE HEADER]

It reads bindings/interface.txt, which says how it is written, and says the first line in which that and include/fazgrond.h differ.
With `--cffi` or `--lua` it prints what cffi, or LuaJIT's ffi, takes as declarations instead. bindings/csharp/declare,
bindings/rust/declare, bindings/web/declare and bindings/python/build make theirs by this module.
"""
import re
import sys
from dataclasses import dataclass, field
from itertools import zip_longest
from pathlib import Path

FOLDER = Path(__file__).resolve().parent
TABLE = FOLDER / "interface.txt"
HEADER = FOLDER.parent / "include/fazgrond.h"
NUMBERS = FOLDER / "numbers.txt"

# The types that aren't structs, as C has them. An answer is one of the enum `answer`.
TYPES = {"u8": "uint8_t", "u32": "uint32_t", "i32": "int32_t", "u64": "uint64_t", "size": "size_t", "answer": "int32_t"}
TYPES["void"] = "void"


class Fault(Exception):
    pass


@dataclass
class Constant:
    name: str
    value: str

    def in_c(self):
        return [f"#define FAZGROND_{self.name} {self.value}"]


@dataclass
class Enum:
    label: str
    items: list = field(default_factory=list)  # names and numbers

    def in_c(self):
        return ["enum {", *[f"    FAZGROND_{name} = {number}," for name, number in self.items], "};"]


@dataclass
class Member:
    kind: str
    name: str
    count: str  # the constant that says how many there are; nothing if it is no list

    def in_c(self):
        if self.kind == "pointer":
            return f"    void *{self.name};"
        return f"    {type_in_c(self.kind)} {self.name}{f'[FAZGROND_{self.count}]' if self.count else ''};"


@dataclass
class Struct:
    name: str
    members: list = field(default_factory=list)
    opens: str = ""  # of a handle: the call that makes what is behind it, and the one that destroys that
    closes: str = ""

    def in_c(self):
        return [f"typedef struct fazgrond_{self.name} {{", *[it.in_c() for it in self.members], f"}} fazgrond_{self.name};"]


@dataclass
class Parameter:
    how: str  # of a pointer: in, out or both
    kind: str
    name: str
    room: str = ""  # how many there are, or there is room for
    filled: str = ""  # how many of them are written

    def type_in_c(self):
        return f"{'const ' if self.how == 'in' else ''}{type_in_c(self.kind)} {'*' if self.how else ''}"

    def in_c(self):
        return self.type_in_c() + self.name


@dataclass
class Given:
    """What a member of a struct is made: a number, a constant, a parameter or a member of one. `few`: up to `most` players."""
    member: str
    most: str
    few: str
    value: str
    is_list: bool = False

    def in_c(self):
        choice = f"players <= {self.most} ? {self.few} : " if self.most else ""
        return f"{self.member}{'[at]' if self.is_list else ''} = {choice}{self.value}"


@dataclass
class Call:
    answer: str
    name: str
    parameters: list
    is_inline: bool  # its code stands in the header, and not in the library
    gives: list = field(default_factory=list)  # if it makes a struct: what it gives to each member
    points: bool = False  # what it answers is a pointer to that, which is only read

    def in_c(self):
        told = ", ".join(it.in_c() for it in self.parameters) or "void"
        answer = f"const {type_in_c(self.answer)} *" if self.points else f"{type_in_c(self.answer)} "
        return [f"{'static inline ' if self.is_inline else ''}{answer}fazgrond_{self.name}({told});"]

    def code_in_c(self):
        """What it gives to members, in lines by their names."""
        return sorted(f"fazgrond_{self.name}: {it.in_c()}" for it in self.gives)


def type_in_c(kind):
    return TYPES.get(kind) or f"fazgrond_{kind}"


# ---- the table

CONSTANT = re.compile(r"constant (\w+) (.+)")
ENUM = re.compile(r"enum (\w+)(?: of numbers\.txt: ([\w ]+))?")
HANDLE = re.compile(r"handle (\w+): (\w+), (\w+)")
STRUCT = re.compile(r"struct (\w+)")
CALL = re.compile(r"(call|inline) (?:(in) )?(\w+) (\w+)\((.*)\)")
ITEM = re.compile(r"    ([A-Z_]+) (\d+)")
MEMBER = re.compile(r"    (\w+) (\w+)(?:\[(\w+)\])?")
GIVEN = re.compile(r"    (\w+) (?:players <= (\d+) \? (\w+) : )?([\w.]+)")
PARAMETER = re.compile(r"(?:(in|out|both) )?(\w+) (\w+)(?:\[(\w+)(?:: (\w+))?\])?")
NUMBER = re.compile(r"(-?\d+) (\w+): ")


def numbers_of(groups):
    """The names and numbers of some groups of numbers.txt that have a sentence."""
    found, group = [], ""
    for line in NUMBERS.read_text().splitlines():
        if line.startswith("["):
            group = line.strip("[]")
        elif (row := NUMBER.match(line)) and group in groups:
            found.append((row[2], row[1]))
    return found


def parameter_of(text):
    found = PARAMETER.fullmatch(text.strip())
    if not found:
        raise Fault(f"`{text.strip()}` is no parameter")
    return Parameter(*[it or "" for it in found.groups()])


def thing_of(line):
    """What begins at a line of the table."""
    if found := CONSTANT.fullmatch(line):
        return Constant(*found.groups())
    if found := ENUM.fullmatch(line):
        return Enum(found[1], numbers_of(found[2].split()) if found[2] else [])
    if found := HANDLE.fullmatch(line):
        return Struct(found[1], [Member("u8", "full", ""), Member("pointer", "at", "")], found[2], found[3])
    if found := STRUCT.fullmatch(line):
        return Struct(found[1])
    if found := CALL.fullmatch(line):
        told = [parameter_of(it) for it in re.split(r",(?![^\[]*\])", found[5]) if it.strip()]
        return Call(found[3], found[4], told, found[1] == "inline", points=bool(found[2]))
    raise Fault("can't be read")


def add_part(thing, line):
    """What stands below the begin of an enum or a struct."""
    if isinstance(thing, Enum) and (found := ITEM.fullmatch(line)):
        thing.items.append(found.groups())
    elif isinstance(thing, Struct) and (found := MEMBER.fullmatch(line)):
        thing.members.append(Member(found[1], found[2], found[3] or ""))
    elif isinstance(thing, Call) and thing.is_inline and (found := GIVEN.fullmatch(line)):
        thing.gives.append(Given(*[it or "" for it in found.groups()]))
    else:
        raise Fault("can't be read")


class Interface:
    """All things of the table, in the header's order."""

    def __init__(self, things):
        self.things = things

    def of(self, kind):
        return [it for it in self.things if isinstance(it, kind)]

    def constants(self):
        """Those that are numbers."""
        return [it for it in self.of(Constant) if it.value[0].isdigit()]

    def numbers(self):
        """The numbers of all names."""
        named = {it.name: int(it.value, 0) for it in self.constants()}
        return named | {name: int(number) for it in self.of(Enum) for name, number in it.items}

    def structs(self):
        return self.of(Struct)

    def handles(self):
        return [it for it in self.structs() if it.opens]

    def calls(self):
        """Those that the library has."""
        return [it for it in self.of(Call) if not it.is_inline]

    def makers(self):
        """Those in the header that make a struct."""
        return [it for it in self.of(Call) if it.gives]


def lines_of(path):
    """The lines of a table with their numbers, without those that say nothing; what goes on in the next line is one."""
    begun = ""
    for at, line in enumerate(path.read_text().splitlines(), 1):
        line = f"{begun} {line.strip()}" if begun else line
        begun = line if line.endswith(",") else ""
        if line and not begun and not line.startswith("#"):
            yield at, line


def read(path=TABLE):
    things = []
    for at, line in lines_of(path):
        try:
            if line.startswith(" "):
                add_part(things[-1], line)
            else:
                things.append(thing_of(line))
        except (Fault, IndexError) as why:
            raise Fault(f"{path.name}, line {at}: {why}") from why
    found = Interface(things)
    check_words(found)
    for maker in found.makers():
        fill(maker, next(it for it in found.structs() if it.name == maker.answer))
    return found


def fill(maker, struct):
    """Has a maker give something to each member, in the struct's order."""
    told = {it.member: it for it in maker.gives}
    if not told.keys() <= {it.name for it in struct.members}:
        raise Fault(f"{maker.name}: {struct.name} has no such member")
    plain = {"size": Given("size", "", "", "sizeof")}
    maker.gives = [(plain | told).get(it.name) or Given(it.name, "", "", "0") for it in struct.members]
    for given, it in zip(maker.gives, struct.members):
        given.is_list = bool(it.count)


def check_words(interface):
    """What a table says of itself has to be there: types, lengths, and who opens and closes handles."""
    types, calls = {*TYPES, "pointer", *[it.name for it in interface.structs()]}, {it.name for it in interface.of(Call)}
    constants = {it.name for it in interface.constants()}
    for struct in interface.structs():
        if struct.opens and not {struct.opens, struct.closes} <= calls:
            raise Fault(f"{struct.name}: there is no call {struct.opens}, or no {struct.closes}")
        for it in struct.members:
            if it.kind not in types or it.count and it.count not in constants:
                raise Fault(f"{struct.name}.{it.name}: there is no type {it.kind}, or no number {it.count}")
    for call in interface.of(Call):
        check_call(call, types)


def check_call(call, types):
    plain = {it.name: it for it in call.parameters}
    for it in call.parameters:
        room, filled = plain.get(it.room), plain.get(it.filled)
        if it.kind not in types or call.answer not in types:
            raise Fault(f"{call.name}: there is no type {it.kind}, or no {call.answer}")
        if call.points and not call.is_inline:
            raise Fault(f"{call.name}: what the library answers is no pointer")
        if it.room and (not it.how or not room or room.kind != "size" or room.how):
            raise Fault(f"{call.name}: {it.name} has no length {it.room}")
        if it.filled and it.filled != "answer" and (not filled or filled.how != "out"):
            raise Fault(f"{call.name}: {it.name} isn't as long as {it.filled}")


# ---- the header

COMMENT = re.compile(r"/\*((?:[^*]|\*(?!/))*)\*/")
PIECES = re.compile(
    r"""(?P<frame>\#ifndef\ FAZGROND_H\n\#define\ FAZGROND_H\n|\#include\ <\w+\.h>\n|\#endif\n
        |\#ifdef\ __cplusplus\n(?:extern\ "C"\ \{|\})\n\#endif\n|\s+)
      |\#define\ FAZGROND_(?P<constant>\w+)\ (?P<value>.+)\n
      |typedef\ struct\ fazgrond_(?P<struct>\w+)\ \{(?P<members>[^}]*)\}\ fazgrond_(?P=struct);
      |enum\ \{(?P<items>[^}]*)\};
      |(?P<inline>static\ inline\ )?(?P<points>const\ )?(?P<answer>\w+)\ (?(points)\*)fazgrond_(?P<call>\w+)\((?P<parameters>[^)]*)\)
        (?:;|\ \{\n(?P<code>(?s:.*?))\n\})""", re.X)
SET = re.compile(r"^ +\w+\.(\w+)(\[at\])? = (?:players <= (\d+) \? (\w+) : )?(.+);$", re.M)
KINDS = {name: kind for kind, name in TYPES.items() if kind != "answer"} | {"void *": "pointer"}


def kind_of(name):
    return KINDS.get(name) or name.removeprefix("fazgrond_")


def members_of(text):
    """The members of a struct of the header."""
    found = []
    for part in filter(None, map(str.strip, text.split(";"))):
        one = re.fullmatch(r"(void \*|\w+ )(\w+)(?:\[FAZGROND_(\w+)\])?", part)
        if not one:
            raise Fault(f"`{part}` is no member")
        found.append(Member(kind_of(one[1] if "*" in one[1] else one[1].strip()), one[2], one[3] or ""))
    return found


def parameters_of(text):
    """The parameters of a call of the header, which doesn't say whether what isn't const is read too."""
    found = []
    for part in filter(lambda it: it not in ["", "void"], map(str.strip, text.split(","))):
        one = re.fullmatch(r"(const )?(\w+) (\*?)(\w+)", part)
        if not one:
            raise Fault(f"`{part}` is no parameter")
        found.append(Parameter("in" if one[1] else "both" if one[3] else "", kind_of(one[2]), one[4]))
    return found


def thing_in(found):
    """What a piece of the header declares."""
    if found["constant"]:
        return Constant(found["constant"], found["value"].strip())
    if found["struct"]:
        return Struct(found["struct"], members_of(found["members"]))
    if found["items"]:
        return Enum("", re.findall(r"FAZGROND_(\w+)\s*=\s*(\d+)", found["items"]))
    return Call(kind_of(found["answer"]), found["call"], parameters_of(found["parameters"]), bool(found["inline"]),
                given_in(found["code"] or ""), bool(found["points"]))


def given_in(code):
    """What a call of the header gives to the members of the struct that it makes."""
    code = re.sub(r"\(uint32_t\)sizeof \w+", "sizeof", code.replace("FAZGROND_", ""))
    return [Given(member, most, few, (value.removesuffix("[at]") if at else value).replace("->", "."), bool(at))
            for member, at, most, few, value in SET.findall(code)]


def header_of(text):
    """All things that a header declares, with their lines. What can't be read is a fault."""
    text = COMMENT.sub(lambda it: re.sub(r"[^\n]", "", it.group()), text)
    text = re.sub(r" +$", "", text, flags=re.M)
    things, at = [], 0
    while at < len(text):
        line = text.count("\n", 0, at) + 1
        found = PIECES.match(text, at)
        if not found:
            raise Fault(f"fazgrond.h, line {line}: can't be read")
        if not found["frame"]:
            things.append((line, thing_in(found)))
        at = found.end()
    return things


def said_of(text):
    """What a header says of its calls, in one line each."""
    found = re.findall(rf"^{COMMENT.pattern}\n\w+ fazgrond_(\w+)\(", text, re.M)
    return {name: re.sub(r"\s*\n\s*\*?\s*", " ", said).strip() for said, name in found}


def difference(interface, header):
    """The first line in which a table and a header differ; nothing if there is none."""
    due = [line for it in interface.things for line in it.in_c()]
    there = [(at, line) for at, it in header_of(header) for line in it.in_c()]
    due += [line for it in interface.makers() for line in it.code_in_c()]
    there += [(at, line) for at, it in header_of(header) if isinstance(it, Call) for line in it.code_in_c()]
    for line, (at, found) in zip_longest(due, there, fillvalue=(0, "nothing more")):
        line = line if isinstance(line, str) else line[1]
        if line != found:
            return f"line {at} of the header: `{found.strip()}`, and by the table `{line.strip()}`"
    return None


# ---- declarations for those who read C

def constant_in_lua(it):
    return f"static const {'unsigned ' if int(it.value, 0) >> 31 else ''}int FAZGROND_{it.name} = {it.value};"


def cdef(interface, is_lua):
    """What cffi takes, or LuaJIT's ffi, for which there is no #define, and no function that stands in the header alone."""
    numbers = interface.numbers()
    lines = []
    for it in interface.things:
        if isinstance(it, Constant) and it in interface.constants():
            lines += [constant_in_lua(it)] if is_lua else it.in_c()
        elif isinstance(it, Call):
            lines += [] if is_lua and it.is_inline else [it.in_c()[0].removeprefix("static inline ")]
        elif not isinstance(it, Constant):
            lines += [re.sub(r"FAZGROND_(\w+)\]", lambda found: f"{numbers[found[1]]}]", line) for line in it.in_c()]
    return "\n".join(lines)


def main():
    words = sys.argv[1:]
    if words not in ([], ["--cffi"], ["--lua"]) and len(words) != 2:
        sys.exit(__doc__)
    try:
        if len(words) == 1:
            print(cdef(read(), words == ["--lua"]))
            return
        table, header = map(Path, words or [TABLE, HEADER])
        sys.exit(difference(read(table), header.read_text()))
    except Fault as why:
        sys.exit(str(why))


if __name__ == "__main__":
    main()
