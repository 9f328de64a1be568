"""Says what is wrong with a value by a schema of docs/schema/. Made from JSON Schema, draft 2020-12, as far as these use it.

A keyword that none of them uses is not known here, and a schema with one is refused as it is read. A `$ref` is the name of a file
of the folder, `#/` and a way in the file, or both; one that leads nowhere is an error.
"""

import collections
import functools
import json
import re

from shared import ROOT

SCHEMAS = ROOT / "docs" / "schema"
NOTES = {"$schema", "title", "description", "$defs"}
TYPES = {"object": dict, "array": list, "string": str, "integer": int, "number": (int, float), "null": type(None)}

# A schema, or a part of one, with the name of its file.
Part = collections.namedtuple("Part", "schema file")


class SchemaFault(Exception):
    """A schema cannot be used."""


def wrong_value(value, file):
    """What is wrong with a value by the schema in a file of the folder, or nothing."""
    return next(faults(value, read(file), "the value"), None)


@functools.cache
def read(file):
    """The schema in a file of the folder."""
    return tested(Part(json.loads((SCHEMAS / file).read_text()), file))


def tested(part):
    """A schema, if all its keywords are known."""
    for schema in schemas_in(part.schema):
        unknown = schema.keys() - NOTES - INNER.keys() - RULES.keys()
        if unknown or schema.get("additionalProperties") not in (None, False):
            raise SchemaFault(f"{part.file}: a keyword is not known here, or says more than is known: {schema}")
    return part


def schemas_in(schema):
    """A schema, and all that stand in it, but for those that fit nothing."""
    if schema is not False:
        yield schema
        members = [*schema.get("$defs", {}).values(), *schema.get("properties", {}).values()]
        for inner in [*members, *schema.get("oneOf", []), schema.get("items", False)]:
            yield from schemas_in(inner)


def target(part, link):
    """The part to which a `$ref` leads."""
    file, _, way = link.partition("#/")
    found, file = read(file or part.file)
    for name in way.split("/") if way else []:
        found = found[name]
    return Part(found, file)


def is_of(value, name):
    """Whether a value is of a type, or of any. True and False are of none that has a name."""
    return name == "any" or isinstance(value, TYPES[name]) and not isinstance(value, bool)


def faults(value, part, at):
    """What is wrong with a value that stands at a place, by a part of a schema."""
    if part.schema is False:
        yield f"{at} may not be there"
        return
    for keyword, wanted in part.schema.items():
        if keyword in INNER:
            yield from INNER[keyword](value, wanted, part, at)
        elif keyword in RULES:
            name, fits = RULES[keyword]
            if is_of(value, name) and not fits(value, wanted, part.schema):
                yield f"{at} is {json.dumps(value)[:80]}, wanted {keyword} {wanted}"


def by_link(value, wanted, part, at):
    yield from faults(value, target(part, wanted), at)


def by_one(value, wanted, part, at):
    """Exactly one of these schemas has to fit."""
    found = [next(faults(value, Part(one, part.file), at), None) for one in wanted]
    if found.count(None) != 1:
        yield f"{at} fits {found.count(None)} of {len(found)} schemas, wanted 1: {[fault for fault in found if fault]}"


def by_members(value, wanted, part, at):
    for name in wanted.keys() & value.keys() if is_of(value, "object") else []:
        yield from faults(value[name], Part(wanted[name], part.file), f"{at}.{name}")


def by_items(value, wanted, part, at):
    for place, entry in enumerate(value if is_of(value, "array") else []):
        yield from faults(entry, Part(wanted, part.file), f"{at}[{place}]")


# What looks at a value by each keyword that has schemas in it.
INNER = {"$ref": by_link, "oneOf": by_one, "properties": by_members, "items": by_items}

# For each other keyword the type of the values that it is about, and the rule that they have to fit.
RULES = {
    "additionalProperties": ("object", lambda value, _, schema: value.keys() <= schema["properties"].keys()),
    "required": ("object", lambda value, names, _: value.keys() >= set(names)),
    "type": ("any", lambda value, names, _: any(is_of(value, name) for name in ([names] if type(names) is str else names))),
    "enum": ("any", lambda value, wanted, _: value in wanted),
    "const": ("any", lambda value, wanted, _: value == wanted),
    "minimum": ("number", lambda value, least, _: value >= least),
    "maximum": ("number", lambda value, most, _: value <= most),
    "minItems": ("array", lambda value, least, _: len(value) >= least),
    "maxItems": ("array", lambda value, most, _: len(value) <= most),
    "pattern": ("string", lambda value, wanted, _: re.search(wanted, value) is not None)}
