"""What the pictures of docs/ are drawn of: their style, texts and boxes, by hand-written SVG."""
from xml.sax.saxutils import escape

STYLE = """text { font: 13px sans-serif; fill: #222 }
.small { font-size: 11px }
.title { font-size: 15px; font-weight: bold }
.edge { fill: none; stroke: #8a8a8a; stroke-width: 1.2 }
.changed { stroke: #c0392b; stroke-width: 1.8 }
.red { fill: #f6c1ba; stroke: #c0392b; stroke-width: 2 }
.executed { fill: #fbe3a6; stroke: #b7791f; stroke-width: 2 }
.green { fill: #cdebcf; stroke: #2e7d32; stroke-width: 2 }
.input { fill: #e8e8e8; stroke: #777; stroke-width: 2 }
.band { fill: #f5f5f2; stroke: #bbb }
.crate { fill: #fff; stroke: #666 }"""


def svg(width, height, name, parts, style=""):
    """A picture of these parts, white behind them so that it can be read on a dark page too, with more rules of style if it needs some."""
    head = [f'<svg xmlns="http://www.w3.org/2000/svg" viewBox="0 0 {width} {height}" width="{width}" height="{height}" '
            f'role="img" aria-label="{escape(name)}">', f"<title>{escape(name)}</title>", f"<style>{STYLE}{style}</style>",
            '<defs><marker id="to" viewBox="0 0 8 8" refX="7" refY="4" markerWidth="7" markerHeight="7" orient="auto">'
            '<path d="M0 0 L8 4 L0 8 z" fill="#666"/></marker></defs>',
            f'<rect width="{width}" height="{height}" fill="#fff"/>']
    return "\n".join([*head, *parts, "</svg>"]) + "\n"


def text(x, y, words, kind="", anchor="start"):
    names = f' class="{kind}"' if kind else ""
    return f'<text x="{x}" y="{y}" text-anchor="{anchor}"{names}>{escape(words)}</text>'


def box(x, y, width, height, kind):
    return f'<rect x="{x}" y="{y}" width="{width}" height="{height}" rx="5" class="{kind}"/>'
