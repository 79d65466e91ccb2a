"""The part of SARIF 2.1.0 that packaging/rvcollide-sarif writes, as a schema made by hand from the standard: its required members, enumerations, least
lengths and lists without a thing twice, and what code hosts ask beside them: a line for each result, rules with texts, a fingerprint of their own name.
"""
import json
import re
import subprocess
import sys

import built

try:
    import jsonschema
except ImportError:
    jsonschema = None

SCRIPT = built.TOP / "packaging/rvcollide-sarif"
CLASSES = ("kept", "counter", "unwatched", "flag", "ordered", "atomic", "named")
RULES = [*(f"data-race/{it}" for it in CLASSES), "stuck-end"]


def some(members, *needed, **more):
    return {"type": "object", "properties": members, "required": list(needed), "additionalProperties": False, **more}


def many(items, **more):
    return {"type": "array", "items": items, "minItems": 1, **more}


def each(items):
    """A list that has nothing twice."""
    return many(items, uniqueItems=True)


def full(most=None):
    return {"type": "string", "minLength": 1, **({"maxLength": most} if most else {})}


NUMBER, FULL = {"type": "integer", "minimum": 0}, full()
MESSAGE, SHORT = some({"text": FULL}, "text"), some({"text": full(1024)}, "text")
BELOW = {"type": "string", "pattern": r"^(?!/)(?:[A-Za-z0-9._~/-]|%[0-9A-F]{2})+$"}
ABSOLUTE = {"type": "string", "pattern": r"^file:///(?:[A-Za-z0-9._~/-]|%[0-9A-F]{2})+$"}
ARTIFACT = {"anyOf": [some({"uri": BELOW, "uriBaseId": {"const": "SRCROOT"}}, "uri"), some({"uri": ABSOLUTE}, "uri")]}
REGION, ADDRESS = some({"startLine": {"type": "integer", "minimum": 1}}, "startLine"), some({"absoluteAddress": {**NUMBER, "maximum": 0xFFFFFFFF}}, "absoluteAddress")
PHYSICAL = some({"artifactLocation": ARTIFACT, "region": REGION, "address": ADDRESS}, "artifactLocation")
LOGICAL = each(some({"name": FULL, "kind": {"enum": ["function", "variable"]}}, "name", "kind"))
PLACE = {"physicalLocation": PHYSICAL, "logicalLocations": LOGICAL}
# A result's own location has a line always, as hosts ask.
FIRST = some({**PLACE, "physicalLocation": {**PHYSICAL, "required": ["artifactLocation", "region"]}}, "physicalLocation")
RELATED = some({"id": {"type": "integer", "minimum": 1}, "message": MESSAGE, **PLACE}, "id", "message", "physicalLocation")
STEP = some({"location": some({"message": MESSAGE, **PLACE}, "message", "physicalLocation"), "executionOrder": NUMBER}, "location", "executionOrder")
FLOWS = many(some({"threadFlows": many(some({"id": FULL, "locations": many(STEP)}, "id", "locations"))}, "threadFlows"), maxItems=1)
LEVEL = {"enum": ["error", "warning", "note"]}
PRINTS = some({"rvcollide/v1": {"type": "string", "pattern": "^[0-9a-f]{64}$"}, "primaryLocationLineHash": {"type": "string", "pattern": "^[0-9a-f]{16}:1$"}}, "rvcollide/v1", "primaryLocationLineHash")
RESULT = some({"ruleId": {"enum": RULES}, "level": LEVEL, "message": MESSAGE, "locations": many(FIRST, maxItems=1), "relatedLocations": each(RELATED), "codeFlows": FLOWS,
               "baselineState": {"enum": ["new", "unchanged"]}, "partialFingerprints": PRINTS}, "ruleId", "level", "message", "locations", "partialFingerprints")
RULE = some({"id": {"enum": RULES}, "shortDescription": SHORT, "fullDescription": SHORT, "help": MESSAGE, "defaultConfiguration": some({"level": LEVEL}, "level")},
            "id", "shortDescription", "fullDescription", "help", "defaultConfiguration")
NOTES = many(some({"level": LEVEL, "message": MESSAGE}, "level", "message"))
INVOCATION = some({"executionSuccessful": {"type": "boolean"}, "exitCode": {"enum": [0, 5, 6]}, "toolExecutionNotifications": NOTES}, "executionSuccessful")
DRIVER = some({"name": {"const": "rvcollide"}, "version": {"type": "string", "pattern": r"^[0-9]+\.[0-9]+\.[0-9]+$"}, "rules": {**each(RULE), "minItems": len(RULES), "maxItems": len(RULES)}}, "name", "version", "rules")
BASES = some({"SRCROOT": some({"uri": {"type": "string", "pattern": "^file:///(?:.*/)?$"}}, "uri")}, "SRCROOT")
RUN = some({"tool": some({"driver": DRIVER}, "driver"), "invocations": many(INVOCATION, maxItems=1), "originalUriBaseIds": BASES,
            "results": {"type": "array", "items": RESULT}}, "tool", "invocations", "results")
SCHEMA = some({"$schema": {"type": "string", "format": "uri"}, "version": {"const": "2.1.0"}, "runs": many(RUN, maxItems=1)}, "version", "runs")


def convert(text, *words, folder=None):
    """What the script makes of a text: its status and both of its outputs."""
    done = subprocess.run([sys.executable, SCRIPT, *words], cwd=folder, input=built.bytes_of(text), capture_output=True, timeout=120)
    return done.returncode, done.stdout, done.stderr.decode()


LINK = re.compile(r"\[(?:\\[\\\[\]]|[^\\\[\]])*\]\(\d+\)")


def messages_in(value):
    """The texts of all messages of a part of SARIF."""
    for name, it in value.items() if isinstance(value, dict) else enumerate(value) if isinstance(value, list) else ():
        if name == "message":
            yield it["text"]
        yield from messages_in(it)


def sarif_of(tries, what, found, *words):
    """The run of an object's SARIF, which is valid: by the schema, and where a schema can't say it."""
    status, out, err = convert(json.dumps(found), *words, folder=tries.folder)
    tries.same(f"{what}: ends", (status, err), (0, ""))
    made = json.loads(out)
    if jsonschema:
        wrong = next(jsonschema.Draft202012Validator(SCHEMA).iter_errors(made), None)
        tries.holds(f"{what}: by the schema", wrong is None, wrong and f"{wrong.message} at {list(wrong.absolute_path)}")
    run = made["runs"][0]
    tries.same(f"{what}: a result each", len(run["results"]), len(found["races"]) + len(found["stuck"] or []))
    tries.same(f"{what}: its rules", [it["id"] for it in run["tool"]["driver"]["rules"]], RULES)
    for name in ("rvcollide/v1", "primaryLocationLineHash"):
        prints = [it["partialFingerprints"][name] for it in run["results"]]
        tries.same(f"{what}: {name}", len(set(prints)), len(prints))
    tries.same(f"{what}: folders", '"SRCROOT"' in json.dumps(run["results"]) and "originalUriBaseIds" not in run, False)
    for text in messages_in(run):
        bare = re.sub(r"\{\{|\}\}|\\[\[\]]", "", LINK.sub("", text))
        tries.holds(f"{what}: a message is plain", not re.search(r"[\[\]{}]", bare), text)
    for result in run["results"]:
        ids, text = [it["id"] for it in result.get("relatedLocations", [])], result["message"]["text"]
        tries.same(f"{what}: numbers", ids, [*range(1, len(ids) + 1)])
        tries.holds(f"{what}: links", {int(it) for it in re.findall(r"(?<!\\)\]\((\d+)\)", text)} <= set(ids), text)
        for flow in (it for flows in result.get("codeFlows", []) for it in flows["threadFlows"]):
            orders = [it["executionOrder"] for it in flow["locations"]]
            tries.same(f"{what}: steps in order", orders, sorted(set(orders)))
    return run


PIECE = re.compile(r"(?<!\\)\[((?:\\[\\\[\]]|[^\\\[\]])*)\]\(\d+\)|\\([\[\]])")


def read_back(text):
    """What a reader shows of a message: links by their texts, and no escapes."""
    shown = PIECE.sub(lambda it: it[2] if it[1] is None else re.sub(r"\\(.)", r"\1", it[1]), text)
    return shown.replace("{{", "{").replace("}}", "}")
