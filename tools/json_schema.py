"""What a JSON Schema says of a value, by the library `jsonschema` (Debian's python3-jsonschema)."""

try:
    from jsonschema import Draft202012Validator
except ImportError:
    Draft202012Validator = None


def is_there():
    """Whether this machine has the library."""
    return Draft202012Validator is not None


def with_whole_ends(schema):
    """The schema with patterns as Python takes them: there `$` stands before a last line feed too, and in JSON Schema at the end of the text alone."""
    if isinstance(schema, list):
        return [with_whole_ends(part) for part in schema]
    if not isinstance(schema, dict):
        return schema
    return {key: part.replace("$", r"\Z") if key == "pattern" and isinstance(part, str) else with_whole_ends(part) for key, part in schema.items()}


class Schema:
    """A schema within this document, which holds the definitions that it refers to."""

    def __init__(self, schema, root):
        self.validator = Draft202012Validator(with_whole_ends({**schema, "$defs": root.get("$defs", {})}))

    def faults(self, value):
        """What is wrong with the value, each fault with its place."""
        return [(".".join(str(part) for part in fault.absolute_path), fault.message) for fault in self.validator.iter_errors(value)]

    def passes(self, value):
        return self.validator.is_valid(value)


def keys(schema):
    """All keys that the schema describes, each with its own schema and whether it has to be there."""
    if isinstance(schema, list):
        for part in schema:
            yield from keys(part)
    if isinstance(schema, dict):
        if "type" in schema:
            for key, part in schema.get("properties", {}).items():
                yield key, part, key in schema.get("required", [])
        for part in schema.values():
            yield from keys(part)
