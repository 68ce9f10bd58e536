"""The lines that import names for contracts and proofs, as trees of modules."""
import re


def split_names(text):
    """The parts of a group, which commas outside of braces separate."""
    parts, depth, part = [], 0, ""
    for character in text:
        if character == "," and depth == 0:
            parts.append(part.strip())
            part = ""
            continue
        depth += (character == "{") - (character == "}")
        part += character
    return parts + [part.strip()] if part.strip() else parts


def leaves(path, text):
    """Each name of a group with the path of its module, in order."""
    for part in split_names(text):
        if part.endswith("}"):
            head, inner = part[:-1].split(".{", 1)
            yield from leaves(path + tuple(head.split(".")), inner)
        else:
            more, name = re.match(r"((?:[\w'-]+\.)*)(.+)", part).groups()
            yield path + tuple(more.split(".")[:-1]), name
