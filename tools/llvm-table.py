#!/usr/bin/env python3
"""llvm-table.py types|ids LLVM-DUMP: the table that `dump_records` should print for a stream, from what llvm-pdbutil says of it.

LLVM-DUMP is the output of `llvm-pdbutil dump -types -ids`. Nothing of this repository is used: kinds are cvinfo.h's numbers, indexes and names are
copied from LLVM's lines. Three things LLVM does not print and are filled in from cvinfo.h and from what clang writes: a pointer of kind ptr64 has
size 8, an array has an empty name, and a record whose kind this repository does not read (field list, method list, build information, source line)
is `unhandled`. One thing is document 01's: an array of more than 4,294,967,295 bytes is malformed."""
import re
import sys

KINDS = {
    "LF_MODIFIER": 0x1001, "LF_POINTER": 0x1002, "LF_PROCEDURE": 0x1008, "LF_MFUNCTION": 0x1009, "LF_ARGLIST": 0x1201,
    "LF_FIELDLIST": 0x1203, "LF_BITFIELD": 0x1205, "LF_METHODLIST": 0x1206, "LF_ARRAY": 0x1503, "LF_CLASS": 0x1504,
    "LF_STRUCTURE": 0x1505, "LF_UNION": 0x1506, "LF_ENUM": 0x1507, "LF_INTERFACE": 0x1519, "LF_FUNC_ID": 0x1601,
    "LF_MFUNC_ID": 0x1602, "LF_BUILDINFO": 0x1603, "LF_SUBSTR_LIST": 0x1604, "LF_STRING_ID": 0x1605, "LF_UDT_SRC_LINE": 0x1606,
    "LF_UDT_MOD_SRC_LINE": 0x1607,
}
UNHANDLED = {"LF_FIELDLIST", "LF_BITFIELD", "LF_METHODLIST", "LF_BUILDINFO", "LF_UDT_SRC_LINE", "LF_UDT_MOD_SRC_LINE"}
MODES = {"pointer": "pointer", "ref": "reference", "rvalue ref": "rvalue"}


def index(text):
    """An index as LLVM prints it: `0x100E`, `0x0074 (int)` or `<no type>`."""
    return "0x0" if text.startswith("<no type>") else "0x%x" % int(text.split()[0], 16)


def field(body, label):
    """What stands behind a label, up to the next comma or the line's end."""
    m = re.search(re.escape(label) + r" ?[=:] ?([^,\n]*)", body)
    return m.group(1).strip()


def words(options, names):
    return "".join(" " + out for llvm, out in names if llvm in options)


def record(leaf, head, body):
    if leaf in UNHANDLED:
        return "unhandled"
    if leaf == "LF_MODIFIER":
        bits = field(body, "modifiers").split(" | ")
        return f"modifier of={index(field(body, 'referent'))}" + words(bits, [("const", "const"), ("volatile", "volatile"), ("unaligned", "unaligned")])
    if leaf == "LF_POINTER":
        assert field(body, "kind") == "ptr64"
        bits = field(body, "opts").split(" | ")
        mode = MODES[field(body, "mode")]
        return f"pointer to={index(field(body, 'referent'))} mode={mode} size=8" + words(bits, [("const", "const"), ("volatile", "volatile")])
    if leaf in ("LF_PROCEDURE", "LF_MFUNCTION"):
        made = words(field(body, "options").split(" | "), [("constructor", "constructor")])
        result, arguments, count = index(field(body, "return type")), index(field(body, "param list")), field(body, "# args")
        if leaf == "LF_PROCEDURE":
            return f"procedure result={result} arguments={arguments} parameters={count}{made}"
        return (f"method result={result} class={index(field(body, 'class type'))} this={index(field(body, 'this type'))} "
                f"arguments={arguments} parameters={count} adjustment={field(body, 'this adjust')}{made}")
    if leaf in ("LF_ARGLIST", "LF_SUBSTR_LIST"):
        entries = re.findall(r"^ *(0x[0-9A-F]+|<no type>)", body, flags=re.M)
        return ("arguments" if leaf == "LF_ARGLIST" else "strings") + "".join(" " + index(e) for e in entries)
    if leaf == "LF_ARRAY" and int(field(body, "size")) > 4294967295:
        return "malformed"
    if leaf == "LF_ARRAY":
        return f"array of={index(field(body, 'element type'))} by={index(field(body, 'index type'))} size={field(body, 'size')} name=``"
    if leaf in ("LF_CLASS", "LF_STRUCTURE", "LF_INTERFACE", "LF_UNION", "LF_ENUM"):
        name = head[head.index("`"):]
        unique = re.search(r"unique name: (`.*`)$", body, flags=re.M)
        options = re.search(r"options: (.*)$", body, flags=re.M).group(1)
        names = (" forward" if "forward ref" in options else "") + f" name={name}" + (f" unique={unique.group(1)}" if unique else "")
        fields = index(field(body, "field list"))
        if leaf == "LF_ENUM":
            return f"enum of={index(field(body, 'underlying type'))} fields={fields}{names}"
        size = re.search(r"sizeof (\d+)", options).group(1)
        if leaf == "LF_UNION":
            return f"union size={size} fields={fields}{names}"
        kind = {"LF_CLASS": "class", "LF_STRUCTURE": "struct", "LF_INTERFACE": "interface"}[leaf]
        return f"{kind} size={size} fields={fields} derived={index(field(body, 'base list'))} shape={index(field(body, 'vtable'))}{names}"
    if leaf == "LF_FUNC_ID":
        m = re.search(r"name = (.*), type = (.*), parent scope = (.*)$", body, flags=re.M)
        return f"function scope={index(m.group(3))} type={index(m.group(2))} name=`{m.group(1)}`"
    if leaf == "LF_MFUNC_ID":
        m = re.search(r"name = (.*), type = (.*), class type = (.*)$", body, flags=re.M)
        return f"member parent={index(m.group(3))} type={index(m.group(2))} name=`{m.group(1)}`"
    if leaf == "LF_STRING_ID":
        m = re.search(r"ID: (.*?), String: (.*)$", head)
        return f"string list={index(m.group(1))} name=`{m.group(2)}`"
    sys.exit(f"no rule for {leaf}")


def main():
    which, path = sys.argv[1:]
    text = open(path).read()
    title = {"types": "Types (TPI Stream)", "ids": "Types (IPI Stream)"}[which]
    part = text[text.index(title):]
    other = part.find("(IPI Stream)") if which == "types" else -1
    if other >= 0:
        part = part[:other]
    starts = [m for m in re.finditer(r"^ *(0x[0-9A-F]+) \| (LF_\w+) \[size = \d+[^\]]*\] ?(.*)$", part, flags=re.M)]
    for m, after in zip(starts, starts[1:] + [None]):
        body = part[m.end():after.start() if after else len(part)]
        print(f"{index(m.group(1))} 0x{KINDS[m.group(2)]:x} {record(m.group(2), m.group(3), body)}")


main()
