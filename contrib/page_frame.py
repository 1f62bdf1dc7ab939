"""The web page of a job: its frame, its style, and the program that draws it in a browser."""
from html import escape

from page_script import SCRIPT

STYLE = """
* { box-sizing: border-box; }
body { margin: 0; background: var(--paper); color: var(--ink); font: 15px/1.45 system-ui, sans-serif; }
main, header { max-width: 1560px; margin: 0 auto; padding: 0 16px; }
h1 { font-size: 1.35rem; margin: 16px 0 2px; overflow-wrap: anywhere; }
h2 { font-size: 1.05rem; margin: 22px 0 6px; }
p { margin: 4px 0; }
.faint, th { color: var(--faint); }
.facts { display: flex; flex-wrap: wrap; gap: 2px 18px; margin: 6px 0 10px; padding: 0; list-style: none; }
.facts b { font-variant-numeric: tabular-nums; }
.bar { position: sticky; top: 0; z-index: 2; background: var(--paper); border-bottom: 1px solid var(--line); }
.bar > div { max-width: 1560px; margin: 0 auto; padding: 8px 16px; }
.keys { display: flex; flex-wrap: wrap; align-items: center; gap: 6px; }
.keys input { flex: 1 1 240px; min-width: 120px; accent-color: var(--accent); height: 28px; }
button { font: inherit; color: var(--ink); background: var(--box); border: 1px solid var(--edge); border-radius: 6px;
  padding: 3px 10px; min-height: 30px; cursor: pointer; }
button:hover { border-color: var(--ink); }
:focus-visible { outline: 3px solid var(--accent); outline-offset: 2px; }
#said { min-height: 1.45em; font-variant-numeric: tabular-nums; overflow-wrap: anywhere; }
.progress { display: grid; grid-template-columns: max-content 1fr max-content; gap: 4px 10px; align-items: center; }
.track { display: flex; height: 12px; border: 1px solid var(--edge); border-radius: 6px; overflow: hidden; }
.track i { display: block; height: 100%; }
.scroll { overflow: auto; }
section, h2 { scroll-margin-top: 110px; }
#cluster, .racks { display: flex; flex-wrap: wrap; gap: 10px; align-items: flex-start; }
.centre { border: 1px solid var(--line); border-radius: 8px; padding: 6px 10px 10px; max-width: 100%; overflow: auto; }
.rack { background: var(--box); border: 1px solid var(--line); border-radius: 6px; padding: 4px 8px 8px; }
.rack { max-width: 100%; overflow: auto; }
.rack > div { display: grid; grid-auto-flow: column; gap: 1px 16px; width: max-content; }
.worker { display: flex; align-items: center; gap: 8px; font: 12px/18px ui-monospace, monospace; border-radius: 4px;
  padding: 0 3px; }
.worker b { font-weight: normal; white-space: pre; }
.worker.chosen { box-shadow: 0 0 0 2px var(--accent); }
.worker.dead b { text-decoration: line-through; color: var(--faint); }
.cells { display: grid; gap: 2px; }
.cell { height: 14px; border-radius: 3px; border: 1px solid var(--edge); background: var(--paper); color: #111;
  font: 10px/12px ui-monospace, monospace; text-align: center; overflow: hidden; white-space: pre; }
.many .cells { gap: 1px; } .many .cell { font-size: 9px; border-radius: 2px; }
.many .worker { line-height: 15px; font-size: 11px; } .many .part { border-radius: 5px; }
.worker.dead .cell { border-style: dotted; opacity: .5; }
.s0, .s2, .s4, .s6, .part { border-color: transparent; }
.s0 { background: var(--good); } .s2 { background: var(--near); } .s4 { background: var(--far); }
.s6 { background: var(--bad); } .part { background: var(--grey); border-radius: 7px; }
.backup { box-shadow: inset 0 -3px 0 #111; }
.legend { display: flex; flex-wrap: wrap; gap: 4px 16px; margin: 4px 0 8px; padding: 0; list-style: none; }
.legend li { display: flex; align-items: center; gap: 6px; }
.legend canvas { width: 26px; height: 14px; }
#lines { position: relative; max-height: min(80vh, 60rem); border: 1px solid var(--line); border-radius: 6px; }
#lines canvas { display: block; cursor: crosshair; }
table { border-collapse: collapse; font-variant-numeric: tabular-nums; }
.scroll.table { max-height: 28rem; border: 1px solid var(--line); border-radius: 6px; }
th, td { text-align: right; padding: 3px 10px; white-space: nowrap; }
th { position: sticky; top: 0; background: var(--paper); font-weight: 600; }
td.left, th.left { text-align: left; white-space: normal; }
tr:hover td, tr.now td { background: var(--box); }
tr.now td:first-child { box-shadow: inset 3px 0 0 var(--accent); }
td button { min-height: 26px; padding: 0 10px; }
#tip { position: fixed; z-index: 3; pointer-events: none; max-width: min(34rem, 90vw); background: var(--ink);
  color: var(--paper); border-radius: 6px; padding: 6px 10px; font-size: 13px; white-space: pre-line; }
[hidden] { display: none !important; }
.skip { position: absolute; left: -999px; } .skip:focus { left: 8px; top: 8px; z-index: 4; background: var(--paper); }
footer { margin: 28px 0 20px; }
"""

BODY = """
<a class="skip" href="#slider">To the slider</a>
<header>
<h1></h1>
<p id="ending"></p>
<ul class="facts" id="facts"></ul>
</header>
<div class="bar"><div>
<div class="keys">
<button id="waveBack" type="button" aria-label="The wave before">|&#x25C0;</button>
<button id="back" type="button" aria-label="The event before">&#x25C0;</button>
<label for="slider">Event <span id="at"></span></label>
<input id="slider" type="range" min="0" value="0" step="1" aria-describedby="said">
<button id="on" type="button" aria-label="The next event">&#x25B6;</button>
<button id="waveOn" type="button" aria-label="The next wave">&#x25B6;|</button>
<button id="play" type="button" aria-pressed="false">Play</button>
</div>
<p id="said" role="status"></p>
</div></div>
<main>
<section aria-labelledby="h-progress">
<h2 id="h-progress">How far the job is</h2>
<div class="progress" id="progress"></div>
</section>
<section aria-labelledby="h-cluster">
<h2 id="h-cluster">The cluster after this event</h2>
<ul class="legend" id="legend"></ul>
<div id="cluster"></div>
</section>
<section aria-labelledby="h-lines">
<h2 id="h-lines">Attempts by worker</h2>
<p class="keys"><button id="zoomIn" type="button">Closer</button><button id="zoomOut" type="button">Farther</button>
<span id="view" class="faint"></span></p>
<div id="lines" class="scroll" tabindex="0" role="group" aria-labelledby="h-lines" aria-describedby="linesHelp worker">
<canvas></canvas>
</div>
<p id="worker" role="status"></p>
<p id="linesHelp" class="faint">A click goes to an event. Here the keys up and down choose a worker, left and right an
event.</p>
</section>
<section aria-labelledby="h-waves">
<h2 id="h-waves">Waves</h2>
<p id="noPrices" class="faint">The texts have no prices; --planner asks a program for them.</p>
<div class="scroll table" tabindex="0" role="group" aria-labelledby="h-waves"><table id="waves"></table></div>
</section>
<section aria-labelledby="h-starts">
<h2 id="h-starts">What the last wave started</h2>
<div class="scroll table" tabindex="0" role="group" aria-labelledby="h-starts"><table id="starts"></table></div>
</section>
<section aria-labelledby="h-others">
<h2 id="h-others">Deaths, returns, failures, backups and copies</h2>
<div class="scroll table" tabindex="0" role="group" aria-labelledby="h-others"><table id="others"></table></div>
</section>
<footer class="faint">Places are those of the history, counted from 1. Steps: 0 on a holder, 2 within its rack, 4 to
another rack, 6 between data centres.</footer>
</main>
<div id="tip" role="tooltip" hidden></div>
<noscript>This page is drawn by its own script, which needs no network.</noscript>
"""


def colours(inks, accent):
    """What turns with the reader's scheme."""
    names = {"paper": "paper", "ink": "ink", "faint": "faint", "line": "line", "box": "box", "edge": "faint"}
    return "".join(f"--{name}:{inks[of]};" for name, of in names.items()) + f"--accent:{accent};"


def page(data, title, light, dark, fills):
    """The whole page over its data, a JSON text."""
    fixed = "".join(f"--{name}:{colour};" for name, colour in fills.items())
    return "\n".join([
        "<!DOCTYPE html>",
        '<html lang="en">',
        "<head>",
        '<meta charset="utf-8">',
        '<meta name="viewport" content="width=device-width, initial-scale=1">',
        '<meta name="color-scheme" content="light dark">',
        '<meta http-equiv="Content-Security-Policy" content="default-src \'none\'; style-src \'unsafe-inline\'; '
        'script-src \'unsafe-inline\'">',
        f"<title>{escape(title)}: a job by mrjob</title>",
        f"<style>:root{{color-scheme:light dark;{fixed}{colours(light, '#0969da')}}}",
        f"@media (prefers-color-scheme:dark){{:root{{{colours(dark, '#58a6ff')}}}}}",
        f"{STYLE}</style>",
        "</head>",
        "<body>",
        BODY.strip(),
        # (in a script no `<` of the data may begin an end tag)
        '<script type="application/json" id="data">' + data.replace("<", "\\u003c") + "</script>",
        f"<script>{SCRIPT}</script>",
        "</body>",
        "</html>",
        "",
    ])
