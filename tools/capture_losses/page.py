"""What stands in each report's page. It stands alone: it loads nothing, runs nothing, and its policy says so."""

from html import escape

STYLE = """
:root { --whole: #b7c9b4; --repaired: #2b7bba; --incomplete: #e31a1c; --absent: #222; --late: #ffa500;
  --line: #ddd; --text: #1c1c1c; --faint: #666; }
* { box-sizing: border-box; }
body { font: 15px/1.45 system-ui, -apple-system, "Segoe UI", Roboto, "DejaVu Sans", sans-serif; color: var(--text); background: #fff;
  max-width: 1040px; margin: 24px auto 48px; padding: 0 20px; }
h1 { font-size: 26px; margin: 0 0 12px; } h1 small { font-weight: normal; color: var(--faint); font-size: 17px; margin-left: 8px; }
h2 { font-size: 19px; margin: 32px 0 2px; padding-top: 18px; border-top: 2px solid var(--line); font-variant-numeric: tabular-nums; }
h2 span { font-weight: normal; color: var(--faint); }
h3 { font-size: 15px; margin: 22px 0 4px; }
.verdict { font-size: 16px; background: #f3f5f2; border-left: 5px solid #6b8f66; padding: 8px 14px; margin: 0 0 12px; }
.verdict.lost { background: #fdf0ef; border-left-color: var(--incomplete); } .verdict p { margin: 2px 0; }
.warning { background: #fff6e0; border-left: 5px solid var(--late); padding: 8px 14px; margin: 0 0 8px;
  white-space: pre-wrap; overflow-wrap: anywhere; }
dl { display: flex; flex-wrap: wrap; gap: 4px 28px; margin: 12px 0 0; } dl div { display: flex; gap: 7px; } dt { color: var(--faint); }
dd { margin: 0; font-variant-numeric: tabular-nums; }
.facts, .legend, .foot { color: var(--faint); font-size: 13px; margin: 2px 0 8px; }
.cards { display: flex; flex-wrap: wrap; gap: 8px; margin: 12px 0 4px; }
.card { border: 1px solid var(--line); border-top: 4px solid #999; padding: 4px 9px 6px; min-width: 80px;
  font-size: 12.5px; color: var(--faint); }
.card b { display: block; font-size: 21px; color: var(--text); font-variant-numeric: tabular-nums; }
.card.w { border-top-color: var(--whole); } .card.r, .card.again { border-top-color: var(--repaired); }
.card.i, .card.never { border-top-color: var(--incomplete); } .card.a { border-top-color: var(--absent); }
.strip { display: flex; flex-wrap: wrap; align-items: flex-end; gap: 2px; padding: 4px 0; }
.strip.tiny { gap: 1px; }
.strip > * { display: block; width: 11px; height: 22px; background: var(--whole); }
.strip.small > * { width: 6px; height: 14px; } .strip.tiny > * { width: 3px; height: 8px; }
.strip .r, .key.r { background: var(--repaired); } .strip .i, .key.i { background: var(--incomplete); }
.strip .a, .key.a { background: #fff; border: 2px solid var(--absent); } .strip.tiny .a { border-width: 1px; }
.key { display: inline-block; width: 11px; height: 11px; margin: 0 5px 0 14px; vertical-align: -1px; } .key:first-child { margin-left: 0; }
.key.w { background: var(--whole); } .key.late { background: var(--late); } .key.gone { background: var(--absent); width: 4px; }
.plot { width: 100%; height: auto; display: block; }
.plot .grid { stroke: var(--line); } .plot .tick { font-size: 11px; fill: var(--faint); }
.plot .never { fill: var(--incomplete); } .plot .again { fill: var(--repaired); } .plot .gone { fill: var(--absent); }
table { border-collapse: collapse; width: 100%; font-size: 13.5px; }
th { text-align: left; font-weight: 600; } th, td { padding: 5px 12px 5px 0; border-bottom: 1px solid var(--line); vertical-align: top; }
td { font-variant-numeric: tabular-nums; white-space: nowrap; } td.wraps { white-space: normal; overflow-wrap: anywhere; min-width: 130px; }
td:first-child { color: var(--faint); } img { display: block; border: 1px solid var(--line); } tr:target { background: #fff6e0; }
.foot { margin-top: 36px; border-top: 1px solid var(--line); padding-top: 8px; }
@media print { body { margin: 0; max-width: none; } * { print-color-adjust: exact; -webkit-print-color-adjust: exact; } }
"""

STRIP_LEGEND = (
    '<p class="legend"><span class="key w"></span>whole<span class="key r"></span>whole, repaired by packets sent again'
    '<span class="key i"></span>incomplete<span class="key a"></span>absent: nothing of it came</p>'
)

PLOT_LEGEND = (
    '<p class="legend"><span class="key i"></span>packets that never came, at the time of their image, upwards'
    '<span class="key r"></span>packets sent again, downwards<span class="key gone"></span>images of which nothing came</p>'
)

TABLE_HEAD = (
    '<p class="legend"><span class="key i"></span>bytes that never came'
    '<span class="key late"></span>bytes that came when the image was done; a click opens the large picture, a file beside this page</p>'
    "<table><tr><th>picture</th><th>first packet at</th><th>block</th><th>image</th><th>missing</th><th>packet ids</th><th>why</th></tr>"
)

FOOT = (
    '<p class="foot">Times are those of the capture, in the zone of the machine that made this page. '
    "A packet that never came isn't in the capture: it was lost before it, or the capture itself dropped it. "
    "Where an image is whole here, and wasn't in the application, it was lost behind the capture. "
    "The file losses.csv has all that isn't whole, and what was sent again. Made by gevacq's tools/losses.</p></body></html>"
)


def head(title):
    policy = "default-src 'none'; img-src data:; style-src 'unsafe-inline'"
    return (
        f'<!DOCTYPE html><html lang="en"><head><meta charset="utf-8"><meta http-equiv="Content-Security-Policy" content="{policy}">'
        f'<meta name="viewport" content="width=device-width"><title>{escape(title)}</title><style>{STYLE}</style></head><body>'
    )
