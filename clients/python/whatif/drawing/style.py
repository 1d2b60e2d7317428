"""The style of a page and of its parts, which holds below the class `whatif` alone."""

from __future__ import annotations

from .colours import DARK, LIGHT, LINES, rules

LAYOUT = """
.whatif{color:var(--ink);background:var(--card);font:15px/1.5 system-ui,-apple-system,"Segoe UI","DejaVu Sans",sans-serif}
.whatif{-webkit-text-size-adjust:100%}
body.whatif{background:var(--paper);margin:0}
.whatif main{max-width:1100px;margin:0 auto;padding:24px 16px 48px}
.whatif *{box-sizing:border-box}
.whatif h1{font-size:26px;line-height:1.25;margin:0 0 4px;overflow-wrap:anywhere}
.whatif h2{font-size:18px;line-height:1.3;margin:0 0 4px;overflow-wrap:anywhere}
.whatif h3{font-size:16px;line-height:1.3;margin:18px 0 4px}
.whatif p{margin:4px 0 8px;overflow-wrap:anywhere}
.whatif small{color:var(--soft);font-weight:400;font-size:85%;white-space:nowrap}
.whatif a{color:var(--link)}
.whatif section{background:var(--card);border:1px solid var(--rule);border-radius:10px;padding:14px 18px;margin:14px 0}
.whatif section:target,.whatif pre span:target{outline:2px solid var(--link)}
.whatif .soft{color:var(--soft);font-weight:400}
.whatif p.soft{font-size:14px}
.whatif .e{color:var(--error);font-weight:600}
.whatif .findings{background:var(--warning)}
.whatif .good{background:var(--good)}
.whatif ol{margin:6px 0;padding-left:26px}
.whatif li{margin:3px 0;overflow-wrap:anywhere}
.whatif .meta{font-size:13px;color:var(--soft);margin:0 0 8px}
.whatif .tag{border:1px solid var(--rule);border-radius:9px;padding:1px 8px;white-space:nowrap}
.whatif .wide{overflow-x:auto;max-width:100%;position:relative;scrollbar-width:thin}
.whatif .side{display:flex;flex-wrap:wrap;gap:12px 28px;align-items:flex-start}
.whatif .side>*{max-width:100%}
.whatif .side>figure{width:480px}
.whatif .most{width:480px}
.whatif .least{width:min-content;min-width:260px}

.whatif .wide table{min-width:min(240px,100%)}
.whatif table{border-collapse:separate;border-spacing:2px;font-variant-numeric:tabular-nums;color:inherit;margin:0}
.whatif caption{text-align:left;padding:2px 0 6px;color:var(--soft);font-size:13px}
.whatif td,.whatif th{padding:3px 9px;text-align:left;font-weight:400;white-space:nowrap;border-radius:3px;background:none}
.whatif tbody tr:nth-child(n){background:none}
.whatif th{font-weight:600}
.whatif thead th{vertical-align:bottom}
.whatif tbody th{white-space:normal;min-width:92px;max-width:340px;overflow-wrap:break-word}
.whatif .heat tbody th{min-width:0}
.whatif .heat thead th{white-space:normal}
.whatif .heat thead th:first-child{min-width:120px}
.whatif .n,.whatif table .n{text-align:right}
.whatif .part{display:inline-block;min-width:5.6em;padding-left:.6em;text-align:right}
.whatif .heat td.e{text-align:right}
.whatif .over{color:var(--soft);text-align:center;font-weight:400}
.whatif th.now{text-decoration:underline;text-decoration-thickness:2px;text-underline-offset:4px}
.whatif .here{outline:2px solid var(--ink);outline-offset:-1px;font-weight:700}
.whatif .grid td{border-bottom:1px solid var(--rule);border-radius:0;white-space:pre-wrap;min-width:30px;max-width:340px;overflow-wrap:break-word}
.whatif .grid td.n{white-space:nowrap}
.whatif .grid thead td{border:none}
.whatif .grid tbody th{min-width:0}
.whatif .formula{background:var(--paper)}
.whatif .legend span.key{display:inline-block;white-space:nowrap;border-radius:3px;padding:1px 8px;margin-right:8px;font-size:13px}
.whatif .legend span.here{margin:0 2px;font-weight:400}
.whatif figure{margin:0;max-width:100%}
.whatif figcaption{font-size:13px}
.whatif .curves{display:block;width:480px;max-width:100%;height:auto;font-size:12px;fill:var(--ink)}
.whatif .curves .end{text-anchor:end}
.whatif .curves .middle{text-anchor:middle}
.whatif .curves .name,.whatif .curves .tick{fill:var(--soft)}
.whatif .curves .head,.whatif .curves .crossing{font-weight:600}
.whatif .halo{paint-order:stroke;stroke:var(--card);stroke-width:4px;stroke-linejoin:round}
.whatif .grid-line,.whatif line.grid{stroke:var(--rule)}
.whatif line.zero{stroke:var(--soft);vector-effect:non-scaling-stroke}
.whatif line.now{stroke:var(--soft);stroke-dasharray:3 3}
.whatif .line{fill:none;stroke-width:2;stroke-linejoin:round}
.whatif .ring{fill:none;stroke-width:2}
.whatif .map{display:block;width:480px;max-width:100%;height:360px;border:1px solid var(--rule)}
.whatif .map .none{fill:var(--error)}
.whatif .map .here{outline:none;fill:none;stroke:var(--ink);stroke-width:2px;vector-effect:non-scaling-stroke}
.whatif svg.bar{display:block;width:100%;min-width:70px;height:18px}
.whatif td.bar{width:280px;padding:3px 0}
.whatif .tornado td.bar{width:420px}
.whatif .less,.whatif rect.low{fill:var(--below)}
.whatif .more,.whatif rect.high{fill:var(--above)}
.whatif b.low{color:var(--below)}
.whatif b.high{color:var(--above)}
.whatif code,.whatif pre{font:13px/1.5 ui-monospace,SFMono-Regular,Menlo,"DejaVu Sans Mono",monospace}
.whatif code{overflow-wrap:anywhere}
.whatif pre{white-space:pre-wrap;overflow-wrap:anywhere;margin:8px 0 0}
.whatif pre span{display:block;padding-left:4.6em;text-indent:-4.6em}
.whatif pre i{display:inline-block;min-width:3.6em;margin-right:1em;text-align:right;text-indent:0;color:var(--soft)}
.whatif pre i{font-style:normal;user-select:none}
.whatif pre .bad{background:var(--warning)}
.whatif pre b{display:block;text-indent:0}
.whatif summary{cursor:pointer;padding:2px 0}
.whatif dl{margin:0;font-size:13px;color:var(--soft)}
.whatif dt{font-weight:600}
.whatif dd{margin:0 0 6px;overflow-wrap:anywhere}
.whatif button{font:inherit;font-size:12px;white-space:nowrap;color:var(--link);background:none;cursor:pointer}
.whatif button{border:1px solid var(--rule);border-radius:6px;padding:1px 8px;margin-left:8px}
@media(max-width:560px){
.whatif main{padding:14px 8px 32px}
.whatif section{padding:10px 10px}
.whatif h1{font-size:22px}
.whatif td,.whatif th{padding:3px 4px;font-size:13.5px}
.whatif tbody th{min-width:72px}
.whatif .heat thead th:first-child{min-width:72px}
.whatif .heat td,.whatif .heat th{padding:3px 4px}
.whatif table:not(.tornado) .bar{display:none}
.whatif .tornado td.bar{width:auto}
.whatif .part{display:block;min-width:0;padding:0}
.whatif pre span{padding-left:3.2em;text-indent:-3.2em}
.whatif pre i{min-width:2.4em;margin-right:.8em}
}
@media print{
body.whatif{background:#fff}
.whatif main{max-width:none;padding:0}
.whatif{font-size:11px;-webkit-print-color-adjust:exact;print-color-adjust:exact}
.whatif section{border:none;border-top:1px solid var(--rule);border-radius:0;padding:8px 0;margin:8px 0}
.whatif tr,.whatif figure,.whatif h2,.whatif .meta{break-inside:avoid}
.whatif h2,.whatif .meta,.whatif caption{break-after:avoid}
.whatif h1{font-size:20px}
.whatif h2,.whatif h3{font-size:13px}
.whatif .meta,.whatif caption,.whatif figcaption,.whatif .legend span.key,.whatif code,.whatif pre,.whatif dl{font-size:10px}
.whatif td,.whatif th{padding:2px 6px}
.whatif .wide{overflow:visible}
.whatif .side{gap:8px 16px}
.whatif .side>figure,.whatif .curves{width:310px}
.whatif .most,.whatif .map{width:330px}
.whatif .map{height:250px}
.whatif button{white-space:nowrap;display:none}
}
"""


PAPER = "@page{size:A4;margin:14mm}"
"""For whole pages alone: it would hold for all of a notebook."""


def style() -> str:
    """All rules, in light and, where the reader's screen is dark, in dark."""
    lines = [f".whatif .line{count}{{stroke:var(--line{count})}}" for count in range(LINES)]
    lines += [f".whatif .dot.line{count}{{fill:var(--line{count});stroke:none}}" for count in range(LINES)]
    lines += [f".whatif text.line{count}{{fill:var(--line{count});stroke:none}}" for count in range(LINES)]
    lines += [f".whatif text.halo.line{count}{{stroke:var(--card)}}" for count in range(LINES)]
    layout = LAYOUT.replace("\n", "")
    return f"{rules(LIGHT)}@media screen and (prefers-color-scheme:dark){{{rules(DARK)}}}.whatif{{color-scheme:light dark}}{layout}{''.join(lines)}"
