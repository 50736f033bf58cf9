"""The schemas that pydantic 2 uses for a field whose type is Record, Duration, Offset or Zone. pydantic is imported only when it asks for them."""
from __future__ import annotations

import importlib
from typing import Any, Callable


def core_schema(kind: type, source: Any, handler: Any) -> Any:
    """Returns the schema of a class. A field accepts an object of the class, or a text, and is written as its canonical text. But model_dump() leaves a record
    as it is, because its text does not have all annotations. It would make plain tuples of the others, so they are texts there too."""
    schemas = importlib.import_module("pydantic_core.core_schema")  # so that mypy does not look for it
    read = _reader(kind)

    def accept(value: Any, as_text: Callable[[Any], str]) -> Any:
        return value if isinstance(value, kind) else read(as_text(value))

    written = schemas.plain_serializer_function_ser_schema(_write, info_arg=True, return_schema=schemas.any_schema())
    return schemas.no_info_wrap_validator_function(accept, schemas.str_schema(), serialization=written)


def json_schema(kind: type, schema: Any, handler: Any) -> dict[str, str]:
    """Returns the JSON schema of a class."""
    return {"type": "string"}


def _reader(kind: type) -> Callable[[str], Any]:
    """Returns the function that reads the texts of a class."""
    import ixdtf

    readers: dict[type, Callable[[str], Any]] = {
        ixdtf.Record: ixdtf.parse,
        ixdtf.Duration: ixdtf.parse_duration,
        ixdtf.Offset: ixdtf.parse_offset,
        ixdtf.Zone: ixdtf.parse_zone,
    }
    return readers[kind]


def _write(value: Any, info: Any) -> Any:
    """Returns the canonical text of a value, or the value, if it is a record that is not written as JSON. A record without a date is one of parse_time."""
    import ixdtf

    if not isinstance(value, ixdtf.Record):
        return ixdtf.canonical(value)
    if info.mode == "python":
        return value
    return ixdtf.canonical(value, "date-time" if value.date is not None else "time")
