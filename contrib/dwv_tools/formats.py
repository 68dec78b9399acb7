"""Writes the rows of many files for tools: SARIF 2.1.0 (code scanning) and JUnit XML (test reports)."""
import datetime
import json
import os
import socket
import urllib.parse
from xml.etree import ElementTree

from dwv_tools import explaining, running
from dwv_tools.results import OTHER, WITHOUT, is_failure
from dwv_tools.running import UNREAD, plain

SCHEMA = "https://json.schemastore.org/sarif-2.1.0.json"
UNREAD_RULE = ("UnreadFile", "The file could not be read, or there is no verdict on it.", "The file can be read.")


def uri(path):
    """The path of a file as a reference, relative to the folder of the run if it is below."""
    path = os.path.relpath(path) if not os.path.relpath(path).startswith("..") else os.path.abspath(path)
    return urllib.parse.quote(os.fsencode(path))


def checked(rows):
    return [it for it in rows if it["verdict"] not in (WITHOUT, OTHER)]


def sarif(rows, ignored):
    """A result for each file that fails the run, and each rule that they violate."""
    texts, rules, results = explaining.rules(), {}, []
    for it in checked(rows):
        is_unread = it["verdict"] == UNREAD
        if not is_unread and not is_failure(it, ignored):
            continue
        code = "unread" if is_unread else it["rule"]
        name, text, required = UNREAD_RULE if is_unread else (it["name"], *texts[code])
        rules.setdefault(code, {"id": code, "name": name, "shortDescription": {"text": text},
                                "help": {"text": f"{text} {required}"}})
        said = "\n".join([f"{text} {it['line']}{it['note']}", *it.get("lines", []), *it.get("explanation", [])])
        results.append({
            "ruleId": code, "ruleIndex": list(rules).index(code), "level": "error",
            "message": {"text": plain_text(said)},
            "locations": [{"physicalLocation": {"artifactLocation": {"uri": uri(it["path"])}}}],
            "partialFingerprints": {"dwv/v1": plain(f"{code}:{it['path']}:{it.get('at')}")},
        })
    driver = {"name": "dwv-check", "version": running.VERSION, "rules": list(rules.values())}
    run = {"tool": {"driver": driver}, "columnKind": "utf16CodeUnits", "results": results}
    return json.dumps({"$schema": SCHEMA, "version": "2.1.0", "runs": [run]}, indent=1) + "\n"


def plain_text(text):
    """A text of several lines."""
    return "\n".join(map(plain, text.split("\n")))


def suite_of(rows):
    """The element of a run: what tells it from others, without counts."""
    suites = ElementTree.Element("testsuites")
    now = datetime.datetime.now(datetime.timezone.utc).strftime("%Y-%m-%dT%H:%M:%S")
    suite = ElementTree.SubElement(suites, "testsuite", id="0", package="dwv", name="dwv-check", timestamp=now,
                                   hostname=socket.gethostname() or "localhost")
    suite.set("time", seconds_of(sum(it.get("seconds", 0) for it in rows)))
    ElementTree.SubElement(ElementTree.SubElement(suite, "properties"), "property", name="version",
                           value=running.VERSION)
    return suites, suite


def seconds_of(seconds):
    return f"{seconds:.3f}"


def junit(rows, ignored):
    """A test case for each file that was checked. A file that does not count is one that is skipped."""
    suites, suite = suite_of(rows)
    counts = dict.fromkeys(("tests", "failures", "errors", "skipped"), 0)
    for it in checked(rows):
        case = ElementTree.SubElement(suite, "testcase", classname="dwv", name=plain(it["path"]),
                                      time=seconds_of(it.get("seconds", 0)))
        counts["tests"] += 1
        said = plain(f"{it['line']}{it['note']}")
        if it["verdict"] == UNREAD:
            counts["errors"] += 1
            ElementTree.SubElement(case, "error", type="unread", message=said)
        elif is_failure(it, ignored):
            counts["failures"] += 1
            more = ElementTree.SubElement(case, "failure", type=it["rule"], message=said)
            more.text = plain_text("\n".join([*it.get("lines", []), *it.get("explanation", [])]))
        elif it["sound"] is False:
            counts["skipped"] += 1
            ElementTree.SubElement(case, "skipped").text = said
    for key, count in counts.items():
        # Apache Ant's format has no test that is skipped.
        if count or key != "skipped":
            suite.set(key, str(count))
    for name in ("system-out", "system-err"):
        ElementTree.SubElement(suite, name)
    ElementTree.indent(suites)
    return ElementTree.tostring(suites, encoding="unicode", xml_declaration=True) + "\n"
