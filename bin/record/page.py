"""A record as a page: one file with the record in it and a script that shows it event by event; nothing is loaded from outside."""
import os
from html import escape

HERE = os.path.dirname(os.path.realpath(__file__))
SCRIPTS = ("reading", "walking", "telling", "drawing", "lanes", "choosing")


def part(name):
    with open(f"{HERE}/{name}", encoding="utf-8") as file:
        return file.read()


def page_of(text):
    script = "\n".join(part(f"{name}.js") for name in SCRIPTS)
    front = part("page.html").replace("STYLE\n", part("style.css"), 1)
    return f'{front}<pre id="report">\n{escape(text, quote=False)}</pre>\n<script>\n{script}</script>\n</body>\n</html>\n'
