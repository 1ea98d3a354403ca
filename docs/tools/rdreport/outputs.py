"""What is told of groups: as text, as GitHub's annotations, as SARIF, as JUnit's XML."""
import hashlib
import json
import pathlib
import urllib.parse
from xml.sax.saxutils import escape, quoteattr

import formulas

MOST_OBJECTS = 3


def plural(count, what):
    return f"{count} {what}" if count == 1 else f"{count} {what}s"


def place_or_line(call, trace):
    """Where a call is: its place in the source, or its line of the trace."""
    return str(call.place) if call.place else f"line {call.line} of {trace}"


def here(parts):
    """A formula with its values, each part that can hold with what it is."""
    return formulas.joined(parts, lambda part: part[0] if part[2] is None else f"{part[1]} ({'true' if part[2] else 'false'})")


def report(grouping, groups, known):
    """The text: the groups, those that aren't known in full, and how each trace ended."""
    reports = sum(group.reports for group in groups)
    yield f"{plural(reports, 'report')} in {plural(len(groups), 'group')}"
    if known:
        yield f"and {plural(sum(group.reports for group in known), 'report')} in {plural(len(known), 'group')} that are known"
    for number, group in enumerate(groups, 1):
        yield ""
        yield f"{number}. {plural(group.reports, 'time')}{among(group, grouping)}: {group.title}"
        first = group.first
        calls = [(word, str(call.place or ""), f"line {call.line}", str(call)) for word, call in (("race", first.later), ("with", first.earlier))]
        wide, deep = (max(len(row[column]) for row in calls) for column in (1, 2))
        for word, place, line, call in calls:
            yield " ".join(["  ", word, *([f"{place:{wide}}"] if wide else []), f"{line:{deep}} {call}"])
        yield f"   formula {first.formula.split(' ', 1)[1]}"
        if any(holds is not None and text != there for text, there, holds in first.parts or []):
            yield f"      here {here(first.parts)}"
        if len(grouping.runs) > 1:
            yield f"   in {first.trace}{', ..' if len(group.traces) > 1 else ''}"
        if len(group.objects) > 1:
            names = ", ".join(f"{name} {count} times" for name, count in group.objects.most_common(MOST_OBJECTS))
            yield f"   objects {names}{', ..' if len(group.objects) > MOST_OBJECTS else ''}"
    yield ""
    yield from endings(grouping)


def among(group, grouping):
    return f", in {len(group.traces)} of {len(grouping.runs)} traces" if len(grouping.runs) > 1 else ""


def endings(grouping):
    """How the traces ended: the one trace, or how many so and each that wasn't read to its end or whose replay differs."""
    if len(grouping.runs) == 1:
        run = grouping.runs[0]
        yield f"{run.trace}: {plural(run.races, 'race')}, {run.told()}"
        return
    racing = sum(run.ended and run.races > 0 for run in grouping.runs)
    yield f"{len(grouping.runs)} traces: {racing} with races, {sum(run.ended and not run.races for run in grouping.runs)} without"
    for run in grouping.runs:
        if not run.ended or run.status == 5:
            yield f"{run.trace}: {run.told()}"


def troubles(grouping):
    """The runs that weren't read to their end, or whose replay differs without a race."""
    return [run for run in grouping.runs if run.status not in (0, 1)]


def one_line(group, grouping):
    first = group.first
    return (f"{first.later} races with {first.earlier} at {place_or_line(first.earlier, first.trace)} "
            f"({plural(group.reports, 'time')}{among(group, grouping)}): {first.formula}")


def annotations(grouping, groups):
    """Commands of GitHub's jobs, which show a line at its place in a pull request."""
    def command(file, line, title, message):
        def of_property(text):
            return of_data(text).replace(":", "%3A").replace(",", "%2C")

        def of_data(text):
            return text.replace("%", "%25").replace("\r", "%0D").replace("\n", "%0A")
        return f"::error file={of_property(file)},line={line},title={of_property(title)}::{of_data(message)}"
    for group in groups:
        later = group.first.later
        file, line = later.place or (group.first.trace, later.line)
        yield command(file, line, group.title, one_line(group, grouping))
    for run in troubles(grouping):
        yield command(run.trace, run.refused_line or 1, "rd2", run.told())


def sarif(grouping, groups, sources):
    """A log of SARIF 2.1.0: a rule for each formula, a result for each group."""
    def at(call, trace):
        file, line = call.place or (trace, call.line)
        path = pathlib.PurePath(file)
        uri = path.as_uri() if path.is_absolute() else urllib.parse.quote(path.as_posix())
        return {"physicalLocation": {"artifactLocation": {"uri": uri}, "region": {"startLine": max(line, 1)}}, "message": {"text": str(call)}}

    def fingerprint(group):
        sides = [[side.method, side.place.file if side.place else "", sources.line(side.place) if side.place else ""] for side in group.sides]
        return hashlib.sha256(json.dumps([group.formula, sides]).encode()).hexdigest()
    rules = sorted({group.formula for group in groups})
    names = {formula: "/".join(formula.split(" ", 3)[:3]) for formula in rules}
    driver = {"name": "rd2", "rules": [
        {"id": names[formula], "shortDescription": {"text": "Two calls that nothing orders don't commute"},
         "fullDescription": {"text": f"Calls of these methods commute when {formula.split(' when ', 1)[1]}"}} for formula in rules]}
    results = [{
        "ruleId": names[group.formula], "ruleIndex": rules.index(group.formula), "level": "error", "message": {"text": one_line(group, grouping)},
        "locations": [at(group.first.later, group.first.trace)], "relatedLocations": [{"id": 0, **at(group.first.earlier, group.first.trace)}],
        "occurrenceCount": group.reports, "partialFingerprints": {"rdreport/1": fingerprint(group)}} for group in groups]
    told = [{"level": "error", "message": {"text": f"{run.trace}: {run.told()}"}} for run in troubles(grouping)]
    invocation = {"executionSuccessful": not told, "toolExecutionNotifications": told}
    log = {"$schema": "https://json.schemastore.org/sarif-2.1.0.json", "version": "2.1.0",
           "runs": [{"tool": {"driver": driver}, "invocations": [invocation], "results": results}]}
    return json.dumps(log, indent=1) + "\n"


def junit(grouping, groups, known):
    """A suite of JUnit: a failed case for each group, a skipped one for each that is known, and one for each trace without new races."""
    def case(name, at, inner=""):
        return f'<testcase classname={attribute(at)} name={attribute(name)}{f">{inner}</testcase>" if inner else "/>"}'

    def attribute(text):
        return quoteattr(visible(text))

    def file_of(group):
        place = group.first.later.place
        return place.file if place else group.first.trace

    def failed(group):
        text = "\n".join([f"{word} {place_or_line(call, group.first.trace)}: {call}" for word, call in
                          (("race", group.first.later), ("with", group.first.earlier))] + [f"formula {group.formula}"])
        return f'<failure type="race" message={attribute(one_line(group, grouping))}>{escape(visible(text))}</failure>'
    new = {trace for group in groups for trace in group.traces}
    cases = [case(f"{group.title}: {sides(group)}", file_of(group), failed(group)) for group in groups]
    cases += [case(f"{group.title}: {sides(group)}", file_of(group), '<skipped message="known"/>') for group in known]
    for run in grouping.runs:
        if run.status not in (0, 1):
            word = "failure" if run.ended else "error"
            cases.append(case(run.trace, "rd2", f"<{word} type=\"trace\" message={attribute(run.told())}/>"))
        elif run.trace not in new:
            cases.append(case(run.trace, "rd2"))
    counts = [len(cases)] + [sum(f"<{word} " in each for each in cases) for word in ("failure", "error", "skipped")]
    numbers = " ".join(f'{word}="{count}"' for word, count in zip(("tests", "failures", "errors", "skipped"), counts))
    lines = ['<?xml version="1.0" encoding="UTF-8"?>', "<testsuites>", f'<testsuite name="rd2" {numbers}>', *cases, "</testsuite>", "</testsuites>"]
    return "\n".join(lines) + "\n"


def sides(group):
    return " and ".join(str(side.place or "no place") for side in group.sides)


def visible(text):
    """Without the characters that XML doesn't have."""
    return "".join(c if c in "\n\t" or " " <= c and not "\ud800" <= c <= "\udfff" and c not in "\ufffe\uffff" else "?" for c in text)
