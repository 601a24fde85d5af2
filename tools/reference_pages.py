"""The pages of the API reference: static HTML that asks for nothing else, on a telephone, in light and dark."""

import html
import re

import document_clauses
import reference_links as links
import spec_definitions

STYLE = """
:root { color-scheme: light dark; --back: #ffffff; --fore: #16202a; --faint: #4a5560; --line: #c9d2db; --box: #f3f6fa; --link: #1f4e8c }
@media (prefers-color-scheme: dark) {
  :root { --back: #14191f; --fore: #eef2f6; --faint: #b7c1cb; --line: #3a4652; --box: #1d252e; --link: #8db8f0 } }
* { box-sizing: border-box }
body { margin: 0 auto; max-width: 60rem; padding: 0 1rem 4rem; background: var(--back); color: var(--fore);
  font: 1rem/1.5 system-ui, Helvetica, Arial, sans-serif; overflow-wrap: break-word }
a { color: var(--link) } nav { display: flex; flex-wrap: wrap; gap: .6rem 1rem; align-items: center; padding: .8rem 0; border-bottom: 1px solid var(--line) }
nav form { flex: 1 1 14rem; margin: 0 } input { width: 100%; font: inherit; padding: .3rem .6rem; color: inherit; background: var(--box);
  border: 1px solid var(--line); border-radius: .4rem }
h1 { font-size: 1.6rem; margin: 1rem 0 .2rem } h2 { font-size: 1.2rem; margin: 2rem 0 .4rem; padding-top: .6rem; border-top: 1px solid var(--line) }
h3 { font-size: 1.05rem; margin: 1.4rem 0 .3rem } .faint { color: var(--faint) } p { margin: .5rem 0 }
pre, code { font: .875rem/1.45 ui-monospace, 'DejaVu Sans Mono', Menlo, monospace } code { background: var(--box); border-radius: .25rem; padding: 0 .2rem }
pre { background: var(--box); border: 1px solid var(--line); border-radius: .4rem; padding: .6rem .8rem; overflow-x: auto; margin: .5rem 0; white-space: pre-wrap }
summary { cursor: pointer; color: var(--link) } ul { padding-left: 1.2rem; margin: .3rem 0 } li { margin: .25rem 0 } dt { margin-top: .6rem } dd { margin: 0 0 0 1.2rem }
"""
# The search is a filter of the index's own list. A form on each page leads there, so it needs no script but the index's.
SEARCH = """
const field = document.getElementById('q'), entries = Array.from(document.querySelectorAll('.entry'));
const groups = Array.from(document.querySelectorAll('section')), none = document.getElementById('none');
function search() {
  const words = field.value.toLowerCase().split(/\\s+/).filter(Boolean);
  entries.forEach((one) => { one.hidden = !words.every((word) => one.textContent.toLowerCase().includes(word)); });
  groups.forEach((one) => { one.hidden = !one.querySelector('.entry:not([hidden])'); });
  none.hidden = groups.some((one) => !one.hidden);
}
field.value = new URLSearchParams(location.search).get('q') || '';
field.addEventListener('input', search);
document.querySelector('form').addEventListener('submit', (event) => event.preventDefault());
search();
"""
KINDS = {"struct": "Structs", "enum": "Enums", "trait": "Traits", "function": "Functions", "constant": "Constants", "type": "Types"}
PARTS = {"field": "Fields", "case": "Cases", "method": "Methods"}
FENCE = re.compile(r"```.*")


def page(title, body, script=""):
    form = '<form action="index.html"><input id="q" name="q" type="search" placeholder="Search" aria-label="Search"></form>'
    script = f"<script>{script}</script>" if script else ""
    return (
        f'<!DOCTYPE html>\n<html lang="en"><head><meta charset="utf-8"><meta name="viewport" content="width=device-width, initial-scale=1">'
        f"<title>{html.escape(title)}</title><style>{STYLE}</style></head>\n<body><nav><a href=\"index.html\">Heddleorange</a>{form}</nav>\n"
        f"<main>\n{body}\n</main>{script}</body></html>\n"
    )


def linked(text, target, here=""):
    """A text in which each name that `target` knows is a link, but to the very page. A definition's comment shows beside the pointer."""
    parts, last = [], 0
    for word in links.WORD.finditer(text):
        if (goal := target(word[0])) and goal != here:
            said = f' title="{html.escape(links.comments()[goal])}"' if links.comments().get(goal) else ""
            parts += [html.escape(text[last : word.start()]), f'<a href="{html.escape(goal)}"{said}>{html.escape(word[0])}</a>']
            last = word.end()
    return "".join([*parts, html.escape(text[last:])])


def sentences(item, about):
    """The text of an item: paragraphs, and examples between fences."""
    parts, lines, is_code = [], [], False

    def close():
        if lines:
            text = "\n".join(lines) if is_code else " ".join(lines)
            parts.append(f"<pre>{html.escape(text)}</pre>" if is_code else f"<p>{marked(item, text)}</p>")
            lines.clear()

    for line in about:
        if FENCE.match(line):
            close()
            is_code = not is_code
        elif line or is_code:
            lines.append(line)
        else:
            close()
    close()
    return "\n".join(parts)


def marked(item, text):
    """A paragraph, with what stands in backticks as code."""
    parts = re.split(r"`([^`]+)`", text)
    for at in range(1, len(parts), 2):
        goal = links.target_in_text(item, parts[at])
        code = f"<code>{html.escape(parts[at])}</code>"
        parts[at] = f'<a href="{html.escape(goal)}">{code}</a>' if goal else code
    return "".join(html.escape(part, quote=False) if at % 2 == 0 else part for at, part in enumerate(parts))


def signature(part):
    return f"<pre>{linked(part.head, lambda word: links.target_in_code(part.file, word), links.page_of_item(part))}</pre>"


def clauses(part):
    """The clauses, folded: what is asked of the caller first."""
    if not part.clauses:
        return ""
    rows = []
    for clause in part.clauses:
        name = f" <code>{html.escape(clause.name)}</code>" if clause.name else ""
        said = linked(clause.text, lambda word: links.target_of(part.file, word))
        word = "always" if clause.word == "ghost" and part.kind == "struct" else clause.word
        rows.append(f"<dt>{word}{name}</dt><dd>{sentences(part, clause.about)}<pre>{said}</pre></dd>")
    count = len(rows)
    return f"<details><summary>{count} clause{'s' if count > 1 else ''}</summary><dl>{''.join(rows)}</dl></details>"


def errors(item, part):
    """Which error a function answers, and which cases its text names."""
    found = re.search(r"-> Result<.*, (\w+)>$", part.head, re.S)
    if not found:
        return ""
    error = links.item_named(part.file, found[1])
    goal = links.target_in_code(part.file, found[1])
    name = f'<a href="{goal}"><code>{found[1]}</code></a>' if goal else f"<code>{found[1]}</code>"
    words = set(re.findall(r"\w+", " ".join(re.findall(r"`([^`]+)`", " ".join(part.about)))))
    cases = [case for case in error.parts if case.kind == "case" and case.name in words] if error and goal else []
    rows = "".join(f'<li><a href="{goal}#{links.anchor(case)}"><code>{case.name}</code></a></li>' for case in cases)
    return f"<p>Errors: {name}</p>" + (f"<ul>{rows}</ul>" if rows else "")


def examples(item, part=None):
    found = links.uses_of(item, part)
    if not found:
        return ""
    lines = "\n".join(html.escape(line) for _, line in found)
    files = ", ".join(dict.fromkeys(f"<code>{file}</code>" for file, _ in found))
    return f"<details><summary>Used in an example</summary><pre>{lines}</pre><p class=\"faint\">{files}</p></details>"


def part_text(item, part):
    return "\n".join(
        it
        for it in (
            f'<h3 id="{links.anchor(part)}">{part.name}</h3>',
            signature(part),
            sentences(item, part.about),
            errors(item, part),
            clauses(part),
            examples(item, part) if part.kind == "method" else "",
        )
        if it
    )


def item_page(item):
    """The page of an item, with all that belongs to it."""
    paths = links.offered().get(item.place, (item, []))[1]
    ways = "".join(f"<code>use {path};</code> " for path in paths)
    where = f"<p class=\"faint\">{ways or 'Reached by the fields and methods of others alone. '}<br>{html.escape(item.file)}</p>"
    body = [f"<h1>{item.name}</h1>", where, signature(item), sentences(item, item.about)]
    body += [errors(item, item), clauses(item), examples(item)]
    if item.seen_as:
        seen = linked(item.seen_as, lambda word: links.target_of(item.file, word))
        body.append(f"<p>Contracts see it as <code>{seen}</code>.</p>")
    has = [*(name.rpartition("::")[2] for name in item.derived), *item.traits]
    if has:
        body.append(f"<p class=\"faint\">Traits: {', '.join(f'<code>{html.escape(name)}</code>' for name in has)}</p>")
    for kind, title in PARTS.items():
        parts = [part for part in item.parts if part.kind == kind]
        body += [f"<h2>{title}</h2>", *(part_text(item, part) for part in parts)] if parts else []
    return page(f"{item.name} in {item.crate}", "\n".join(it for it in body if it))


def definitions_page(file):
    """The page of a file of definitions: each with its comment and its text."""
    told = {it.name: it for it in spec_definitions.definitions(file)}
    crate, name = file.split("/")[1], file.partition("/specs/")[2].removesuffix(".antt")
    about = spec_definitions.sentence(spec_definitions.opening(file))
    body = [f"<h1>{html.escape(name)}</h1>", f'<p class="faint">{html.escape(file)}</p>', f"<p>{html.escape(about)}</p>"]
    for name, text in document_clauses.blocks(file).items():
        it = told.get(name)
        code = "\n".join(line for line in text.split("\n") if not line.startswith("--")).rstrip()
        body.append(f'<h3 id="{html.escape(name)}">{html.escape(name)}</h3>')
        body.append(f"<p>{html.escape(spec_definitions.sentence(it.comment))} <span class=\"faint\">({it.kind})</span></p>" if it else "")
        body.append(f"<pre>{linked(code, lambda word: links.target_of(file, word) if word != name else None)}</pre>")
    return page(f"{name} in {crate}", "\n".join(it for it in body if it))


def first_sentence(about):
    text = " ".join(about[: about.index("")] if "" in about else about)
    return re.match(r".*?(?<!\w\.\w)\.(?=\s|$)|.*", text)[0]


def entry(goal, name, said):
    said = html.escape(said.replace("`", ""), quote=False)
    return f'<li class="entry"><a href="{html.escape(goal)}"><code>{html.escape(name)}</code></a> {said}</li>'


def index_page():
    """The index: each item with its methods, then the files of definitions. The search box leaves what has all words."""
    first = '<a href="heddleorange.NewSystem.html"><code>NewSystem</code></a> and <a href="mb_actor.Actor.html"><code>Actor</code></a>'
    body = ["<h1>API reference</h1>", "<p>What a program of your own can use, and the definitions that the contracts cite.", f"Begin with {first}.</p>"]
    body.append('<p id="none" hidden>Nothing has all these words.</p>')
    found = sorted(links.items().values(), key=lambda item: (item.name.lower(), item.crate))
    for kind, title in KINDS.items():
        rows = []
        for item in (it for it in found if it.kind == kind):
            rows.append(entry(links.page_of_item(item), item.name, first_sentence(item.about)))
            for part in (part for part in item.parts if part.kind == "method"):
                goal = f"{links.page_of_item(item)}#{links.anchor(part)}"
                rows.append(entry(goal, f"{item.name}::{part.name}", first_sentence(part.about)))
        body.append(f"<section><h2>{title}</h2><ul>{''.join(rows)}</ul></section>" if rows else "")
    rows = []
    for file in links.cited_files():
        crate, name = file.split("/")[1], file.partition("/specs/")[2].removesuffix(".antt")
        rows.append(entry(links.page_of_definitions(file), f"{crate} {name}", spec_definitions.sentence(spec_definitions.opening(file))))
    body.append(f"<section><h2>Definitions</h2><ul>{''.join(rows)}</ul></section>")
    return page("Heddleorange: API reference", "\n".join(body), SEARCH)


def pages():
    """All pages, texts by their names."""
    found = {"index.html": index_page()}
    found |= {links.page_of_item(item): item_page(item) for item in links.items().values()}
    return found | {links.page_of_definitions(file): definitions_page(file) for file in links.cited_files()}
