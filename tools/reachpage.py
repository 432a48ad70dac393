"""What runs reached of an image, as one page of HTML that needs no other file: for a browser, and for paper."""
from html import escape

import imagefile
import marks
import reach
import walks

STYLE = """
:root { --reached: #d7f0d7; --never: #ffc9c4; --dead: #e4e4e4; --way: #ffe7a8; --bar: #2e8b3d; --gap: #c62f21; --rest: #b8b8b8; }
body { font: 15px/1.45 system-ui, sans-serif; color: #1a1a1a; background: #fff; margin: 2em auto; max-width: 72em; padding: 0 1.5em; }
h1 { font-size: 1.5em; margin: 0 0 .2em; } h2 { font-size: 1.15em; margin: 2em 0 .5em; } h3 { font-size: 1em; margin: 1.6em 0 .3em; }
p { margin: .4em 0; } .big { font-size: 2.2em; font-weight: 600; }
table { border-collapse: collapse; } th, td { text-align: left; padding: .25em 1.4em .25em 0; border-bottom: 1px solid #ddd; vertical-align: top; }
td.n, th.n { text-align: right; white-space: nowrap; font-variant-numeric: tabular-nums; }
.bar { display: flex; height: 1em; min-width: 18em; background: var(--gap); border: 1px solid #777; }
.bar i { display: block; height: 100%; } .bar .y { background: var(--bar); } .bar .x { background: var(--rest); margin-left: auto; }
pre { font: 13px/1.4 ui-monospace, monospace; margin: 0; overflow-x: auto; border: 1px solid #ddd; }
pre span { display: block; padding: 0 .6em; }
.reached { background: var(--reached); } .never { background: var(--never); font-weight: 600; } .dead { background: var(--dead); color: #555; }
.next, .skip { background: var(--way); } .key span { padding: .1em .5em; margin-right: .6em; font-family: ui-monospace, monospace; }
@media print {
  body { margin: 0; max-width: none; font-size: 10pt; padding: 0; } pre { font-size: 8pt; overflow: visible; white-space: pre-wrap; border: 0; }
  table { font-size: 8.5pt; } th, td { padding-right: .7em; } td.n, th.n { white-space: normal; } .bar { min-width: 8em; }
  * { print-color-adjust: exact; -webkit-print-color-adjust: exact; } tr, pre span, h3 { break-inside: avoid; } h2, h3 { break-after: avoid; }
}
""".strip()
KEY = [("reached", "  reached"), ("never", "! no run reached it"), ("next", "? a Test that only ever went one way"), ("dead", "- no walk can reach it")]


def page(name, covered, runs):
    all_, reached, can = covered.totals()
    return "".join([
        f'<!DOCTYPE html>\n<html lang="en">\n<head>\n<meta charset="utf-8">\n<meta name="viewport" content="width=device-width">\n'
        f"<title>{escape(name)}: what the runs reached</title>\n<style>\n{STYLE}\n</style>\n</head>\n<body>\n",
        f"<h1>{escape(name)}: what the runs reached</h1>\n<p class=\"big\">{reach.percent(reached, can)}</p>\n",
        f"<p>{escape(reach.total_line(covered.totals()))}, by {imagefile.many(len(runs), 'walk')}.</p>\n{bar(reached, can, all_)}\n",
        prototypes(covered), lines(covered), tests(covered), handlers(covered), recorded(runs), listing(covered), "</body>\n</html>\n"])


def bar(reached, can, all_):
    """Reached from the left, what no walk can reach from the right, and the gap between them."""
    share = lambda part: f"{100 * part / all_:.3f}%"
    words = f"{reached} reached, {can - reached} never, {all_ - can} that no walk can"
    return (f'<div class="bar" role="img" aria-label="{words}" title="{words}"><i class="y" style="width:{share(reached)}"></i>'
            f'<i class="x" style="width:{share(all_ - can)}"></i></div>')


def table(heads, rows):
    """Heads that start with a blank are of numbers."""
    kinds = [' class="n"' if head.startswith(" ") else "" for head in heads]
    top = "".join(f"<th{kind}>{escape(head.strip())}</th>" for kind, head in zip(kinds, heads))
    body = "".join("<tr>" + "".join(f"<td{kind}>{cell}</td>" for kind, cell in zip(kinds, row)) + "</tr>\n" for row in rows)
    return f"<table>\n<tr>{top}</tr>\n{body}</table>\n"


def prototypes(covered):
    rows = []
    for number, part in enumerate(covered.parts):
        reached = sum(part.visited)
        never = reach.spans(index for index in part.never() if index in part.can)
        rows.append([f'<a href="#p{number}">{number}</a>', part.walks, f"{reached} of {len(part.code)}", bar(reached, len(part.can), len(part.code)),
                     never or "none", reach.spans(part.dead()) or "none"])
    return "<h2>Prototypes</h2>\n" + table([" prototype", " walks", " reached", "", "never reached", "no walk can reach"], rows)


def lines(covered):
    told = [(what.removeprefix("lines "), found) for what, found in reach.told_lines(covered)]
    return "<h2>Script lines, by their marks</h2>\n" + table(["lines", "marks"], [[what, found or "none"] for what, found in told])


def mark_of(record):
    return marks.shown(record["mark"], "line" in record)


def tests(covered):
    rows = []
    for number, part in enumerate(covered.parts):
        for index in part.one_way():
            times, mark = part.ways[index], mark_of(part.code[index])
            rows.append([number, index, mark, sum(times), "0: to the next" if times[1] == 0 else "1: skips one"])
    heading = "<h2>Tests that only ever went one way</h2>\n"
    return heading + (table([" prototype", " instruction", " mark", " times", "only ever"], rows) if rows else "<p>None.</p>\n")


def handlers(covered):
    rows = []
    for number, part in enumerate(covered.parts):
        for handler, of, times, can in part.handlers():
            mark = mark_of(part.code[handler])
            state = "reached" if times else "never" if can else "dead"
            told = str(times) if times else "never" if can else "no walk can enter it"
            rows.append([number, handler, mark, reach.spans(of), f'<span class="{state}">{told}</span>'])
    return "<h2>Handlers</h2>\n" + (table([" prototype", " instruction", " mark", "registered at", "entered"], rows) if rows else "<p>None.</p>\n")


def recorded(runs):
    rows = [[escape(run.name()), run.line, run.asked.prototype, run.path.steps, run.path.index, walks.ENDINGS[run.path.ending][1],
             len(run.asked.decisions), len(run.asked.decisions) - run.path.used, len(run.asked.strikes), len(run.asked.strikes) - run.path.struck] for run in runs]
    heads = ["run", " line", " prototype", " steps", " at instruction", "ended", " decisions", " left over", " strikes", " left over"]
    return "<h2>Walks</h2>\n" + (table(heads, rows) if rows else "<p>None.</p>\n")


def listing(covered):
    key = "".join(f'<span class="{state}">{escape(words)}</span>' for state, words in KEY)
    made, is_open = [f'<h2>Listing</h2>\n<p class="key">{key}</p>\n'], False
    for line, is_code, state in imagefile.rows(covered.image.records, covered.state_of):
        if line.startswith("prototype "):
            number = line.split(" ", 1)[1].split(":")[0]
            made.append(f'{"</pre>" if is_open else ""}\n<h3 id="p{number}">{escape(line)}</h3>\n<pre>')
            is_open = True
        elif is_code:
            text = f"{reach.LEADS.get(state, ' ')} {line}{reach.TAILS.get(state, '')}"
            made.append(f'<span class="{state or "mixed"}">{escape(text)}</span>')
        else:
            made.append(f"<span>{escape(line)}</span>")
    return "".join(made) + "</pre>\n"
