"""What the imports of a file of antt bring, for the tools that read such files."""
import re


def brought(path):
    """The names that an import's path brings, each with its module: `a.{b.{c, d as e}, f.g}` brings `c` and
    `d as e` of `a.b`, and `g` of `a.f`."""
    head, brace, rest = path.strip().partition("{")
    if not brace:
        name, _, alias = head.partition(" as ")
        module, _, name = name.rpartition(".")
        return [(module, f"{name} as {alias}" if alias else name)]
    found, depth, begun = [], 0, 0
    for at, sign in enumerate(rest):
        if depth == 0 and sign in ",}":
            if rest[begun:at].strip():
                found += [(".".join(filter(None, [head.strip(". "), module])), name)
                          for module, name in brought(rest[begun:at])]
            begun = at + 1
        depth += (sign == "{") - (sign == "}")
    return found


def imports(text):
    """The names that the imports of a file's text bring, each with its module. Modules that it brings whole aren't told."""
    for path in re.findall(r"^(?:pub |ghost )*use (Rattle\.[^;\n]*\{[^;\n]*)", text, re.M):
        yield from brought(path)
