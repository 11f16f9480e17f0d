"""The page of a run: new differences and faults first, ordered by the streams that show them, then differences that are no faults.

Each has its code, the output, and the expected one.
"""
import json
from html import escape

from judging.judge import Key
from judging.moments import states_of
from judging.picture import picture_of
from judging.sections import section_of
from judging.snippet import snippet_of

STYLE = """
body { font: 15px/1.45 sans-serif; max-width: 72em; margin: 1.2em auto; padding: 0 1em; color: #222 } h1 { margin: 0 0 .3em }
pre, code { font-family: monospace; background: #f6f6f6 } pre { padding: .7em; overflow-x: auto; margin: .4em 0 }
table { border-collapse: collapse } td, th { border: 1px solid #ccc; padding: .2em .5em; text-align: left; vertical-align: top }
h2 { margin: 2em 0 .3em; border-top: 1px solid #bbb; padding-top: .6em } h3 { margin: 1.2em 0 .3em } .new { color: #b3261e } p { margin: .4em 0 }
figure { display: inline-block; margin: .5em 1em .5em 0; vertical-align: top } figcaption { font-size: 13px; color: #555 }
"""
NEW = "new"
BROWSERS = ("chromium", "firefox", "page")
# The chapters of a page: the kinds of its cases, its heading, and a line below it.
CHAPTERS = (
    ((NEW,), "New", "No known difference fits: to be judged by the standard's text."),
    (("fault",), "Faults", ""),
    (("letter",), "No faults: the letter of the standard", "The player follows another text of the standard, or one that is open."),
    (("ours",), "No faults: rules of this core's own", "The core differs from the standard here by its own profile."),
    (("choice",), "No faults: the player's own rules", "The player's documentation says so."),
)


def line(value):
    return json.dumps(value, separators=(",", ":"))


def title(case):
    key = Key(**case.key)
    forms = "" if key.due == key.told == "ok" else f" (the core replies {key.due}, the player {key.told})"
    return f"{key.cause}, shown by {key.shows}{forms}" if key.cause != key.shows else f"{key.cause}{forms}"


def counted(count, word):
    return f"{count:,} {word}{'' if count == 1 else 's'}"


def rows_of(case):
    last = len(case.commands) - 1
    found = ["<table><tr><th>command</th><th>the core</th><th>the player</th></tr>"]
    for at, (command, reply) in enumerate(zip(case.commands, case.replies)):
        told = case.told if at == last else reply
        found.append(f"<tr><td><code>{escape(line(command))}</code></td><td><code>{escape(line(reply))}</code></td><td><code>{escape(line(told))}</code></td></tr>")
    return "".join(found) + "</table>"


def pictures_of(case, why):
    due = "as it is due" if why == "fault" else "in this core"
    captions = {"before": "before the command", "due": f"after it, {due}", "told": "after it, in the player"}
    states = states_of(case.moments, case.place)
    found = [f"<figure>{picture_of(states[name])}<figcaption>{words}</figcaption></figure>" for name, words in captions.items() if any(states[name].values())]
    return "<div>" + "".join(found) + "</div>"


def code_of(case, why, opened, player):
    """Returns the script of a case, its output and the expected one, with a link to the standard's section."""
    code, told, due = snippet_of(case, opened)
    name, address = section_of(case.key["cause"], case.key["shows"])
    says = "the standard says" if why == "fault" else "this core says"
    around = "<p>jsdom's fault with filters was played around: acceptNode of the window was the filter.</p>" if case.around else ""
    if not opened and player not in BROWSERS:
        around += f"<p>The script has the standard's own calls; <code>referee/referee replay --player {escape(player)} FILE</code> shows the player's replies to a kept case.</p>"
    verdict = f"It prints <code>{escape(told)}</code>; {says} <code>{escape(due)}</code>"
    return f'<pre class="code">{escape(code)}</pre><p class="verdict">{verdict} (<a href="{address}">{escape(name)}</a>).</p>{around}'


def others_of(cases):
    if not cases:
        return ""
    listed = "".join(f"<pre>{escape(chr(10).join(map(line, it.commands)))}\nthe core replies {escape(line(it.replies[-1]))}, the player {escape(line(it.told))}</pre>" for it in cases)
    return f"<details><summary>{counted(len(cases), 'other form')}</summary>{listed}</details>"


def section(name, cases, entry, told):
    """Returns the section of a difference: the shortest of its cases whole, and the others' commands."""
    first, *others = sorted(cases, key=lambda it: (len(it.commands), len(it.name())))
    again = "" if all(it.again for it in cases) else '<p class="new">It did not come again when the same stream was played anew.</p>'
    parts = [f'<h3>{escape(name)}: {counted(streams_of(cases, told), "stream")}</h3>', f"<p>{escape(entry['reason'])}</p>" if entry else "", again]
    why = entry["why"] if entry else NEW
    parts.append(code_of(first, why, told.get("opened"), told.get("player", "")))
    parts.append(pictures_of(first, why))
    parts.append(f"<details><summary>{counted(len(first.commands), 'command')} and both replies</summary>{rows_of(first)}</details>{others_of(others)}")
    return "".join(parts)


def group_of(case):
    """Returns the name of a case's group: its known difference, or the title of cases that look the same."""
    return case.known or title(case)


def streams_of(cases, told):
    """Returns the number of streams that show a difference."""
    return told.get("streams by difference", {}).get(group_of(cases[0])) or sum(it.count for it in cases)


def chapters(cases, known, told):
    groups = {}
    for case in cases:
        groups.setdefault(group_of(case), []).append(case)
    ordered = sorted(groups.items(), key=lambda it: -streams_of(it[1], told))
    found = []
    for whys, heading, words in CHAPTERS:
        here = [(name, its, known.get(its[0].known)) for name, its in ordered if (known.get(its[0].known) or {"why": NEW})["why"] in whys]
        if here:
            found.append(f"<h2>{heading}</h2>" + (f"<p>{words}</p>" if words else "") + "".join(section(name, its, entry, told) for name, its, entry in here))
    return "".join(found)


def head(told, cases, known):
    faults = {it.known for it in cases if it.known in known and known[it.known]["why"] == "fault"}
    new = {group_of(it) for it in cases if it.known is None}
    name = escape(f"{told.get('player', '')} {told.get('version', '')}".strip())
    counts = f"{counted(told.get('streams', 0), 'stream')}, {told.get('compared', 0):,} replies compared, {told.get('seconds', 0)} seconds"
    return f"<h1>{name} beside the DOM Standard</h1><p>{counted(len(faults), 'fault')}, {len(new)} new; {counts}.</p>"


def compared_of(told):
    """Returns a table of the compared replies by command: up to the first difference of each stream, and in all."""
    first, whole = told.get("up to the first difference", {}), told.get("compared by command", {})
    rows = "".join(f"<tr><td>{escape(name)}</td><td>{first.get(name, 0):,}</td><td>{count:,}</td></tr>" for name, count in whole.items())
    heads = "<tr><th>command</th><th>up to the first difference</th><th>in all</th></tr>"
    with_filter = f"<p>{told['compared with a filter']:,} of them are about iterators and walkers with a filter.</p>" if told.get("compared with a filter") else ""
    return f"<details><summary>Replies compared, by command</summary>{with_filter}<table>{heads}{rows}</table></details>" if whole else ""


def foot(told):
    own = "".join(f"<li>{escape(it)}</li>" for it in told.get("itself") or [])
    itself = f"<p>The adapter does this itself, which is never evidence:</p><ul>{own}</ul>" if own else ""
    return f"<h2>The run</h2>{compared_of(told)}{itself}"


def page_of(cases, told, known):
    entries = {it["name"]: it for it in known}
    body = head(told, cases, entries) + chapters(cases, entries, told) + foot(told)
    return f'<!doctype html><html lang="en"><meta charset="utf-8"><title>What the referee found</title><style>{STYLE}</style><body>{body}</body></html>\n'
