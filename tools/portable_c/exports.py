"""What others call: the functions of a header over those of the module, and the start of a program."""
import itertools
import re

from .reading import POINTER, VOID

COMMENT = re.compile(r"/\*.*?\*/|//[^\n]*", re.S)
STRUCT = re.compile(r"typedef struct \w*\s*\{(.*?)\} (\w+);", re.S)
# A field, a parameter, and a function: the type and the name, and of a function also what it takes.
FIELD = re.compile(r"(\w[\w ]*) (\w+)(?:\[\w+\])?;")
PARAMETER = re.compile(r"(\w[\w ]*? \*?)(\w+)(?:, |$)")
PROTOTYPE = re.compile(r"^(\w+)\s+(calendar_\w+)\(([^)]*)\);", re.M)
# What a function of the module has in front of its own name, where the header has the name alone.
INNER = "in_"
# The start of a program, which runtime.h calls.
START = "program"


def show_inner(text, crate):
    """The module in which the crate's own functions stand open as in_NAME, without those of one machine's calls."""
    text = re.sub(r"^define (?!internal)[^\n]*@calendar_\w+\([^\n]*\{\n.*?^\}\n", "", text, flags=re.M | re.S)
    own = rf'@"{crate}::(?:\w+::)+(calendar_\w+)"'
    text = re.sub(rf"^define internal ([^\n]*?){own}", rf"define \1@{INNER}\2", text, flags=re.M)
    return re.sub(own, rf"@{INNER}\1", text)


def show_start(text, crate):
    """The module in which the crate's own start stands open as program, without what prepares one machine for it."""
    text = re.sub(r"^define [^\n]*@main\([^\n]*\{\n.*?^\}\n", "", text, flags=re.M | re.S)
    own = f'@"{crate}::main+start"'
    return text.replace(f"define internal noundef i32 {own}", f"define noundef i32 {own}").replace(own, f"@{START}")


def passed(listed, structs, types):
    """What the parameters of a function of the header are for the module, which takes some structs field by field."""
    for kind, name in PARAMETER.findall(listed):
        first, fields = next(types), structs.get(kind.strip())
        if fields and first == POINTER:
            yield f"(bytes)&{name}"
        elif fields:
            for (_, field), type in zip(fields, itertools.chain([first], types)):
                yield f"({type.name}){name}.{field}"
        else:
            yield f"({first.name}){name}"


def export(result, name, listed, structs, function):
    """A function of the header over that of the module."""
    types, values = iter([type for type, _ in function.parameters]), []
    by_pointer = result != "void" and function.result == VOID
    if by_pointer:
        next(types)
        values.append("(bytes)&result")
    values += passed(listed, structs, types)
    if next(types, None):
        raise ValueError(f"{name} has other parameters in the module")
    call = f"{function.module.callee(function.raw)}({', '.join(values)})"
    if result == "void":
        lines = [f"{call};"]
    elif by_pointer:
        lines = [f"{result} result;", f"{call};", "return result;"]
    elif function.result.parts:
        sets = [f"result.{field} = ({kind})made.f{at};" for at, (kind, field) in enumerate(structs[result])]
        lines = [f"{function.result.name} made = {call};", f"{result} result;", *sets, "return result;"]
    else:
        lines = [f"return ({result}){call};"]
    return "\n".join([f"{result} {name}({listed})", "{", *(f"    {it}" for it in lines), "}", ""])


def exports(header, headers, module):
    """All functions of a header; `headers` are those whose structs it may name."""
    found = [it for text in headers for it in STRUCT.findall(COMMENT.sub("", text))]
    structs = {name: FIELD.findall(" ".join(fields.split())) for fields, name in found}
    by_name, made = {it.raw: it for it in module.functions}, []
    for result, name, listed in PROTOTYPE.findall(COMMENT.sub("", header)):
        listed = " ".join(listed.split())
        made.append(export(result, name, listed, structs, by_name[f"@{INNER}{name}"]))
    return "\n".join(made)
