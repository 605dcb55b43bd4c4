"""Checks a value by a JSON schema, of the keywords that vectors.schema.json has. An unknown one is a fault."""
from __future__ import annotations

import collections.abc
import re

Faults = collections.abc.Iterator[str]
Check = collections.abc.Callable[[object, object, str], Faults]

TYPES = {"object": dict, "array": list, "string": str, "integer": int, "boolean": bool, "null": type(None)}
SILENT = ("$schema", "definitions")


class Schema:
    """A schema with its definitions."""

    def __init__(self, whole: dict[str, object]) -> None:
        self.whole = whole
        self.checks: dict[str, Check] = {
            "type": self.of_type, "enum": self.of_enum, "const": self.of_const, "pattern": self.of_pattern,
            "minimum": lambda value, least, at: self.need(value >= least, at, "too small"),
            "maximum": lambda value, most, at: self.need(value <= most, at, "too large"),
            "minItems": lambda value, least, at: self.need(len(value) >= least, at, "too short"),
            "required": self.of_required, "properties": self.of_properties, "items": self.of_items,
            "oneOf": self.of_one, "allOf": self.of_all, "not": self.of_not, "$ref": self.of_reference}

    def faults(self, value: object, schema: dict[str, object] | None = None, at: str = "") -> Faults:
        """What is wrong with a value, each with its place."""
        schema = self.whole if schema is None else schema
        for keyword, told in schema.items():
            if keyword == "additionalProperties":
                yield from self.of_additional(value, told, schema, at)
            elif keyword not in SILENT:
                yield from self.checks[keyword](value, told, at)

    @staticmethod
    def need(holds: bool, at: str, fault: str) -> Faults:
        if not holds:
            yield f"{at}: {fault}"

    def of_type(self, value: object, told: str, at: str) -> Faults:
        right = isinstance(value, TYPES[told]) and not (told == "integer" and isinstance(value, bool))
        return self.need(right, at, f"isn't of type {told}")

    def of_enum(self, value: object, told: list[object], at: str) -> Faults:
        return self.need(value in told, at, f"{value} isn't one of {told}")

    def of_const(self, value: object, told: object, at: str) -> Faults:
        return self.need(value == told, at, f"{value} isn't {told}")

    def of_pattern(self, value: str, told: str, at: str) -> Faults:
        return self.need(re.search(told, value) is not None, at, "doesn't have the pattern")

    def of_required(self, value: dict[str, object], told: list[str], at: str) -> Faults:
        return self.need(set(told) <= set(value), at, f"lacks one of {told}")

    def of_properties(self, value: dict[str, object], told: dict[str, dict[str, object]], at: str) -> Faults:
        for name in set(value) & set(told):
            yield from self.faults(value[name], told[name], f"{at}.{name}")

    def of_additional(self, value: dict[str, object], told: object, schema: dict[str, object], at: str) -> Faults:
        others = set(value) - set(schema.get("properties", {}))
        if told is False:
            yield from self.need(not others, at, f"has {sorted(others)}")
            return
        for name in others:
            yield from self.faults(value[name], told, f"{at}.{name}")

    def of_items(self, value: list[object], told: dict[str, object], at: str) -> Faults:
        for place, item in enumerate(value):
            yield from self.faults(item, told, f"{at}[{place}]")

    def is_right(self, value: object, schema: dict[str, object]) -> bool:
        return next(self.faults(value, schema), None) is None

    def of_one(self, value: object, told: list[dict[str, object]], at: str) -> Faults:
        return self.need(sum(self.is_right(value, it) for it in told) == 1, at, "isn't right by just one of these")

    def of_all(self, value: object, told: list[dict[str, object]], at: str) -> Faults:
        for it in told:
            yield from self.faults(value, it, at)

    def of_not(self, value: object, told: dict[str, object], at: str) -> Faults:
        return self.need(not self.is_right(value, told), at, "is what it mustn't be")

    def of_reference(self, value: object, told: str, at: str) -> Faults:
        return self.faults(value, self.whole["definitions"][told.removeprefix("#/definitions/")], at)
