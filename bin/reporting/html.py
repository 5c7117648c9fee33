"""Texts of a page: every name goes through `named` or `name_text`, and what else isn't ours through `shown`."""

import base64
import hashlib
import re
import unicodedata
from html import escape
from pathlib import Path

from reporting.names import unescaped

HERE = Path(__file__).resolve().parent
# How many rows a table has at most that stands on paper in one piece, and not in two columns.
FEW = 12
# Bytes that are shown as they are, if the name doesn't end with a blank.
PLAIN = re.compile(rb"[!-~](?:[ -~]*[!-~])?")
# Kinds of characters that no eye sees, or that turn the order of those beside them.
UNSEEN = ("Cc", "Cf", "Cs", "Zl", "Zp")


def stand_in(character):
    """What is shown for a character that no eye sees: an arrow for the end of a line, else the octal digits of its bytes."""
    if character == "\n":
        return "\u21b5"
    return "".join(f"\\{it:03o}" for it in character.encode(errors="surrogateescape"))


def text_of(raw):
    """The text of these bytes. What isn't UTF-8, can't be seen, or is a blank at an end has something in its place."""
    if PLAIN.fullmatch(raw):
        return raw.decode()
    text = raw.decode(errors="surrogateescape")
    last = len(text) - 1
    hidden = lambda at, it: unicodedata.category(it) in UNSEEN or it.isspace() and (at in (0, last) or it != " ")
    return "".join(stand_in(it) if hidden(at, it) else it for at, it in enumerate(text))


def shown(raw):
    """Bytes as text of a page."""
    return escape(text_of(raw))


def name_text(raw):
    """The text of a name as the program or getfacl writes it, without its escapes."""
    return text_of(unescaped(raw))


def named(raw):
    """The same as text of a page."""
    return escape(name_text(raw))


def path_text(raw):
    """A path as text of a page: a line may end behind each slash."""
    return named(raw).replace("/", "/<wbr>")


def place_text(raw):
    """The same of a path as it is, without escapes."""
    return shown(raw).replace("/", "/<wbr>")


def number(count):
    """A number that is easy to read."""
    return f"{count:,}"


def several(count, one, more):
    """A number of things."""
    return f"{number(count)} {one if count == 1 else more}"


def moment(time):
    """A time, which stands in one line."""
    return f"<time>{time}</time>"


def row(*cells):
    """A row of a table: each cell is a class and a text of a page."""
    return "<tr>" + "".join(f"<td{f' class={kind}' if kind else ''}>{it}" for kind, it in cells)


def table(heads, rows):
    """A table that the filter looks at: each head is a class and a text."""
    head = "".join(f"<th{f' class={kind}' if kind else ''} scope=col>{it}" for kind, it in heads)
    kind = "tall" if len(rows) > FEW else "'tall few'"
    return f"<div class={kind}><table class=list><thead><tr>{head}</thead><tbody>{''.join(rows)}</tbody></table></div>"


def rest(count, words):
    """How many more there are than stand in a table or a list: what a filter takes away, which sees only what stands there."""
    return f"<p class=rest>And {number(count)} {words}." if count > 0 else ""


def section(name, title, *parts):
    """A section of the page."""
    return f"<section id={name}><h2>{title}</h2>{''.join(parts)}</section>\n"


def text(words):
    """A paragraph."""
    return f"<p>{words}</p>"


def policy(style, script):
    """What a browser lets the page do: nothing but this style and this script, whatever names stand in it."""
    sums = [base64.b64encode(hashlib.sha256(it.encode()).digest()).decode() for it in (style, script)]
    own = f"style-src 'sha256-{sums[0]}'; script-src 'sha256-{sums[1]}'"
    return f"default-src 'none'; {own}; base-uri 'none'; form-action 'none'"


def head_of_page(title, columns, script=""):
    """What stands before the body of a page whose table has so many columns."""
    style = (HERE / "page.css").read_text().replace("COLUMNS", str(columns))
    meta = "<meta charset=utf-8><meta name=viewport content='width=device-width'>"
    meta += f'<meta http-equiv=Content-Security-Policy content="{policy(style, script)}">'
    return f"<!doctype html>\n<html lang=en><head>{meta}<title>{title}</title><style>{style}</style></head>\n"
