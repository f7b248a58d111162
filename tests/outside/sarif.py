"""Holds a log against sarif.schema.json, by the words of JSON Schema that it uses."""
import json
import os
import re

with open(os.path.join(os.path.dirname(os.path.abspath(__file__)), 'sarif.schema.json'), encoding='utf-8') as file:
    SCHEMA = json.load(file)
TYPES = {'object': dict, 'array': list, 'string': str, 'integer': int, 'number': (int, float), 'boolean': bool}
WORDS = {'$ref', '$schema', 'title', 'definitions', 'type', 'enum', 'minimum', 'pattern', 'items', 'minItems', 'properties', 'required', 'additionalProperties', 'anyOf'}


def members(value, schema, at):
    for name in schema.get('required', []):
        if name not in value:
            yield f'{at} has no {name}'
    for name, part in value.items():
        if name in schema.get('properties', {}):
            yield from faults(part, schema['properties'][name], f'{at}.{name}')
        elif schema.get('additionalProperties') is False:
            yield f'{at} has {name}'


def faults(value, schema=None, at='log'):
    """What is wrong with a value, a text each."""
    schema = SCHEMA if schema is None else schema
    assert set(schema) <= WORDS, set(schema) - WORDS
    if '$ref' in schema:
        schema = SCHEMA['definitions'][schema['$ref'].rsplit('/', 1)[1]]
    if 'type' in schema and (not isinstance(value, TYPES[schema['type']]) or schema['type'] != 'boolean' and isinstance(value, bool)):
        yield f'{at} is no {schema["type"]}'
        return
    if 'enum' in schema and value not in schema['enum']:
        yield f'{at} is {value}'
    if 'minimum' in schema and value < schema['minimum']:
        yield f'{at} is {value}'
    if 'pattern' in schema and not re.search(schema['pattern'], value):
        yield f'{at} is {value}'
    if 'anyOf' in schema and not any(all(name in value for name in choice['required']) for choice in schema['anyOf']):
        yield f'{at} has none of its members'
    if isinstance(value, list):
        if len(value) < schema.get('minItems', 0):
            yield f'{at} is too short'
        for number, part in enumerate(value):
            yield from faults(part, schema.get('items', {}), f'{at}[{number}]')
    if isinstance(value, dict):
        yield from members(value, schema, at)
