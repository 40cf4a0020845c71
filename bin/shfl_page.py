"""What `compare` found, as a page: one file, no scripts, nothing from outside."""
from html import escape

from shfl_tables import count_of, told

BARS = (("throughput", "Holds a second", "longer bars are more"), ("mean_ns", "Mean wait", "shorter bars are better"),
        ("p99_ns", "p99 of the waits", "99 of 100 waits were no longer; a power of two"))
STYLE = """:root{color-scheme:light dark;--off:#8a8f98;--on:#1f6fb2;--back:#f1f2f4;--ink:#222;--soft:#5b616b;--paper:#fff}
@media(prefers-color-scheme:dark){:root{--off:#7d828c;--on:#58a6e8;--back:#2a2d33;--ink:#e6e6e6;--soft:#a5abb5;--paper:#17191d}}
body{font:16px/1.45 system-ui,sans-serif;margin:0 auto;max-width:46rem;padding:1rem;color:var(--ink);background:var(--paper)}
h1{font-size:1.3rem;margin:.2rem 0}h2{font-size:1.05rem;margin:1.4rem 0 .3rem}p{margin:.2rem 0}.soft{color:var(--soft);font-size:.9rem}
.verdict{font-weight:600;padding:.5rem .7rem;background:var(--back);border-radius:.4rem;margin:.6rem 0}
.bar{display:grid;grid-template-columns:3.2rem 1fr 5rem;gap:.5rem;align-items:center;margin:.25rem 0;font-variant-numeric:tabular-nums}
.room{background:var(--back);border-radius:.25rem;height:1.1rem}.room>div{height:100%;border-radius:.25rem;min-width:2px;background:var(--off)}
.on .room>div{background:var(--on)}.bar>:last-child{text-align:right}
.wide{overflow-x:auto}.wide svg{display:block;min-width:44rem}table{border-collapse:collapse;font-size:.9rem;font-variant-numeric:tabular-nums}
th,td{padding:.2rem .5rem;text-align:right;white-space:nowrap}tr{border-bottom:1px solid var(--back)}"""


def shown(name, value):
    return count_of(round(value)) if name == "throughput" else told(value)


def bars(found, name, what, hint, verdict):
    most = max((it[name] or 0 for it in found), default=0) or 1
    rows = [f"<h2>{what}</h2><p class=soft>{hint}</p>"]
    for it in found:
        wide = 100 * (it[name] or 0) / most
        text = shown(name, it[name]) if it[name] is not None else "-"
        rows.append(f'<div class="bar {it["policy"]}"><span>{it["policy"]}</span><div class=room><div style="width:{wide:.1f}%"></div></div><span>{text}</span></div>')
    return rows + [f"<p><b>{escape(verdict)}</b></p>"]


def table(found):
    heads = ("", "policy", "seconds", "holds", "waits", "longest", "within", "across", "asked", "yes")
    rows = ["<div class=wide><table><tr>" + "".join(f"<th>{it}</th>" for it in heads) + "</tr>"]
    for k, it in enumerate(found, 1):
        cells = (str(k), it["policy"], f"{it['seconds']:.1f}", f"{it['taken']:,}", f"{it['waits']:,}", told(it["longest_ns"]),
                 f"{it['within']:,}", f"{it['across']:,}", f"{it['questions']:,}", f"{it['yes']:,}")
        rows.append("<tr>" + "".join(f"<td>{cell}</td>" for cell in cells) + "</tr>")
    return rows + ["</table></div>"]


def orders_of(orders):
    for word, picture in sorted(orders.items()):
        if picture:
            yield f"<h2>The order of holders, {word}</h2><div class=wide>{picture}</div>"


def page(told_all, orders):
    found, said = told_all["turns"], told_all["verdicts"]
    rows = ['<!doctype html><html lang=en><meta charset=utf-8><meta name=viewport content="width=device-width,initial-scale=1">',
            f"<title>Class {told_all['class']} without the policy and with it</title><style>{STYLE}</style>",
            f"<h1>Class {told_all['class']} of process {told_all['pid']}</h1>",
            f"<p>Without a policy (off) and with <b>{escape(told_all['file'])}</b> (on), in turns.</p>",
            f'<p class=verdict>{escape(told_all["verdict"][0].upper() + told_all["verdict"][1:])}</p>']
    for name, what, hint in BARS:
        rows += bars(found, name, what, hint, said[name])
    rows += list(orders_of(orders)) + ["<h2>Each turn</h2>"] + table(found)
    rows.append("<p class=soft>A difference is seen where all turns with the policy stand apart from all without it, by a larger factor than turns of one kind differ "
                "by, and by more than a fiftieth. Fewer than 100 waits in a turn aren't judged. longest: a power of two that no wait reached.</p></html>")
    return "\n".join(rows) + "\n"
