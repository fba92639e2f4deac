"""Rewrites a ShellCommandRequirement: the runner starts a shell by name, and the shell makes the line that it is to read.

Of such a tool the words of the command are joined to one text for `/bin/sh -c`, each quoted unless its binding says `shellQuote: false`.
Where each word is quoted, a shell that runs `"$0" "$@"` does the same. Else the words come between marks, and a small script joins them.
"""

from typing import Any, List, Optional, Tuple

from .marked import Fields, Items

QUOTED = ["/bin/sh", "-c", '"$0" "$@"']
BARE, END = "--deparohi-bare-words--", "--deparohi-quoted-words--"
# Quotes as Python's shlex does: a word of safe characters stays bare.
SCRIPT = r"""c= b=
for w do
case $w in
%s) b=1; continue;;
%s) b=; continue;;
esac
if [ -z "$b" ]; then
case $w in
''|*[!a-zA-Z0-9_@%%+=:,./-]*)
r=$w q=
while :; do
case $r in
*\'*) q="$q${r%%%%\'*}'\"'\"'" r=${r#*\'};;
*) break;;
esac
done
w="'$q$r'";;
esac
fi
c="$c${c:+ }$w"
done
exec /bin/sh -c "$c"
""" % (BARE, END)


class Binding:
    """A binding of a tool: where it stands in the order of the command, and what it is written in."""

    def __init__(self, key: Tuple, fields: Fields) -> None:
        self.key, self.fields = key, fields
        self.bare = fields.get("shellQuote") is False


def why_left(raw: Fields) -> Optional[str]:
    """Returns why the importer doesn't make the command of a shell of a tool, or None where it does."""
    for it in argument_bindings(raw) + [one for _, one, _ in input_bindings(raw)]:
        if not isinstance(it.get("position", 0), int):
            return "the position of a word is an expression"
    if not has_bare(raw):
        return None
    for _, binding, kind in input_bindings(raw):
        if binding.get("shellQuote") is False and is_list(kind) and not isinstance(binding.get("itemSeparator"), str):
            return "the items of a list are not quoted"
    if any(has_inner_binding(it.get("type") if isinstance(it, Fields) else it) for _, it in parameters(raw)):
        return "the type of an input has a binding of its own, and an argument is not quoted"
    return None


def has_bare(raw: Fields) -> bool:
    bindings = argument_bindings(raw) + [one for _, one, _ in input_bindings(raw)]
    return any(it.get("shellQuote") is False for it in bindings)


def command_of(made: Fields, raw: Fields) -> None:
    """Puts the command of the shell into the rewritten tool."""
    base = raw.get("baseCommand")
    words: List[Any] = list(base) if isinstance(base, Items) else [] if base is None else [base]
    front = [*(["/bin/sh", "-c", SCRIPT, "/bin/sh"] if has_bare(raw) else QUOTED), *words]
    made.put("baseCommand", listed(raw, front), raw.line_of("baseCommand"))
    if has_bare(raw):
        made.put("arguments", marked_arguments(made, raw), raw.line_of("arguments"))


def marked_arguments(made: Fields, raw: Fields) -> Items:
    """Returns the arguments with marks around those words that stay bare, and gives each binding a position of its own."""
    bindings: List[Binding] = []
    for at, it in enumerate(items_of(made, "arguments")):
        fields = it if isinstance(it, Fields) else with_value(raw, it)
        bindings.append(Binding((fields.get("position", 0), 0, at, b""), fields))
    for name, it in parameters(made):
        if isinstance(it, Fields) and isinstance(it.get("inputBinding"), Fields):
            binding = it["inputBinding"]
            bindings.append(Binding((binding.get("position", 0), 1, 0, name.encode("utf-8", "surrogatepass")), binding))
    bindings.sort(key=lambda it: it.key)
    arguments = Items(raw.file, raw.line)
    for at, one in enumerate(bindings):
        one.fields.put("position", 3 * at + 1)
        one.fields.pop("shellQuote", None)
        if one.key[1] == 0:
            arguments.add(one.fields)
        if one.bare:
            arguments.add(with_value(raw, BARE, 3 * at))
            arguments.add(with_value(raw, END, 3 * at + 2))
    return arguments


def with_value(raw: Fields, text: Any, position: int = 0) -> Fields:
    made = Fields(raw.file, raw.line)
    made.put("position", position)
    made.put("valueFrom", text)
    return made


def listed(raw: Fields, words: List[Any]) -> Items:
    items = Items(raw.file, raw.line)
    for it in words:
        items.add(it)
    return items


def items_of(raw: Fields, key: str) -> List[Any]:
    """Returns the items of a field that is a list, and none of another."""
    value = raw.get(key)
    return list(value) if isinstance(value, Items) else []


def argument_bindings(raw: Fields) -> List[Fields]:
    return [it for it in items_of(raw, "arguments") if isinstance(it, Fields)]


def parameters(raw: Fields) -> List[Tuple[str, Any]]:
    """Returns the inputs of a tool by their names."""
    inputs = raw.get("inputs")
    if isinstance(inputs, Fields):
        return list(inputs.items())
    return [(str(it.get("id", "")), it) for it in items_of(raw, "inputs") if isinstance(it, Fields)]


def input_bindings(raw: Fields) -> List[Tuple[str, Fields, Any]]:
    found = [(name, it) for name, it in parameters(raw) if isinstance(it, Fields) and isinstance(it.get("inputBinding"), Fields)]
    return [(name, it["inputBinding"], it.get("type")) for name, it in found]


def is_list(kind: Any) -> bool:
    """Says whether a value of a type may be a list."""
    if isinstance(kind, str):
        return "[]" in kind or kind.rstrip("?") not in ("null", "boolean", "int", "long", "string", "File", "Directory")
    if isinstance(kind, Items):
        return any(map(is_list, kind))
    return not (isinstance(kind, Fields) and kind.get("type") == "enum")


def has_inner_binding(kind: Any) -> bool:
    if isinstance(kind, Items):
        return any(map(has_inner_binding, kind))
    return isinstance(kind, Fields) and ("inputBinding" in kind or has_inner_binding(kind.get("items")) or has_inner_binding(kind.get("type")))
