"""Whether a JSON value is what a schema says, by the words that /openapi.json uses."""

import re

KINDS = {"object": dict, "array": list, "string": str, "integer": int, "null": type(None)}
# These say something to people alone, or of other words.
SILENT = {"description", "format"}


def lacks(schema, value, root, at="it"):
    """Why a value is not what a schema of a document says, or nothing."""
    for word, wanted in schema.items():
        why = lack(word, wanted, schema, value, root, at) if word not in SILENT else None
        if why:
            return f"{at}: {why}"
    return None


def lack(word, wanted, schema, value, root, at):
    if word == "$ref":
        return lacks(referred(wanted, root), value, root, wanted)
    if word == "type":
        return None if isinstance(value, KINDS[wanted]) and not isinstance(value, bool) else f"no {wanted}"
    if word == "const":
        return None if value == wanted else f"not {wanted}"
    if word == "enum":
        return None if value in wanted else f"{value} is none of {wanted}"
    if word == "pattern":
        return None if re.search(wanted, value) else f"{value} is not {wanted}"
    if word in ("minimum", "minItems"):
        return None if (value if word == "minimum" else len(value)) >= wanted else f"less than {wanted}"
    if word in ("maximum", "maxItems"):
        return None if (value if word == "maximum" else len(value)) <= wanted else f"more than {wanted}"
    if word == "oneOf":
        whys = [lacks(it, value, root) for it in wanted]
        return None if whys.count(None) == 1 else f"not one of them: {whys}"
    if word == "required":
        return next((f"no {name}" for name in wanted if name not in value), None)
    if word == "properties":
        return next(filter(None, (lacks(wanted[name], it, root, name) for name, it in value.items() if name in wanted)), None)
    if word == "additionalProperties" and wanted is False:
        return next((f"{name} beside" for name in value if name not in schema["properties"]), None)
    if word == "items":
        return next(filter(None, (lacks(wanted, it, root) for it in value)), None)
    raise AssertionError(f"a schema has {word}")


def referred(path, root):
    """What a reference within a document leads to."""
    for name in path.split("/")[1:]:
        root = root[name]
    return root
