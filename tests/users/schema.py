"""Whether a value is of a form that a JSON Schema gives, as far as docs/release.schema.json uses that language."""
import re

TYPES = {"null": type(None), "boolean": bool, "string": str, "array": list, "object": dict}
KNOWN = {"$schema", "$ref", "title", "description", "definitions", "anyOf", "const", "type", "pattern", "minimum", "items", "required",
         "properties", "patternProperties", "additionalProperties"}


def faults(value, schema, root, path="report"):
    """Where a value is not of its form, and why."""
    unknown = set(schema) - KNOWN
    if unknown:
        return [f"{path}: the schema says what is not understood here: {sorted(unknown)}"]
    if "$ref" in schema:
        schema = {**root["definitions"][schema["$ref"].rpartition("/")[2]], **{k: v for k, v in schema.items() if k != "$ref"}}
    found = [f"{path}: is not {schema['const']!r}"] if "const" in schema and value != schema["const"] else []
    if "anyOf" in schema and all(faults(value, one, root, path) for one in schema["anyOf"]):
        found.append(f"{path}: none of the forms that it may have")
    if "type" in schema and not _is_of(value, schema["type"]):
        return [*found, f"{path}: no {schema['type']}"]
    if "pattern" in schema and not re.search(schema["pattern"], value):
        found.append(f"{path}: {value!r} does not match {schema['pattern']}")
    if "minimum" in schema and value < schema["minimum"]:
        found.append(f"{path}: under {schema['minimum']}")
    for place, item in enumerate(value if "items" in schema else []):
        found += faults(item, schema["items"], root, f"{path}[{place}]")
    return found + (_of_object(value, schema, root, path) if isinstance(value, dict) else [])


def _is_of(value, kind):
    if kind in ("integer", "number"):
        return isinstance(value, int if kind == "integer" else (int, float)) and not isinstance(value, bool)
    return isinstance(value, TYPES[kind])


def _of_object(value, schema, root, path):
    found = [f"{path}: lacks {name}" for name in schema.get("required", []) if name not in value]
    for name, item in value.items():
        forms = [form for own, form in schema.get("properties", {}).items() if own == name]
        forms += [form for pattern, form in schema.get("patternProperties", {}).items() if re.search(pattern, name)]
        for form in forms:
            found += faults(item, form, root, f"{path}.{name}")
        if not forms and schema.get("additionalProperties") is False:
            found.append(f"{path}: has {name}, which is not known")
    return found
