"""How the page looks: on narrow and wide screens, in light and dark, and on paper."""

# The lines of the chart have colours that differ for those who see few, and dashes besides. A wide box has a shade at each
# edge behind which more of it is: its two covers of paper move with what is in it, and its two shades stay.
STYLE = """
:root {
  color-scheme: light dark;
  --paper: #ffffff; --ink: #1b1f24; --faint: #57606a; --rule: #c9d1d9; --shade: #f3f5f7; --link: #0550ae;
  --good: #116329; --bad: #a40e26; --edge: rgba(27, 31, 36, 0.4);
  --line-1: #0b62a8; --line-2: #b04a00; --line-3: #1a7f4b; --line-4: #8a3fa0;
  --line-5: #7a5c00; --line-6: #b3205f; --line-7: #4a4f57; --line-8: #007a87;
}
@media screen and (prefers-color-scheme: dark) {
  :root {
    --paper: #14171c; --ink: #e4e8ec; --faint: #a3adb8; --rule: #3b444e; --shade: #1e232a; --link: #7cb7ff;
    --good: #6fd08c; --bad: #ff8f9a; --edge: rgba(228, 232, 236, 0.45);
    --line-1: #6cb6ff; --line-2: #ffab70; --line-3: #6fd08c; --line-4: #d6a2ff;
    --line-5: #e3c35b; --line-6: #ff9bc2; --line-7: #c0c8d0; --line-8: #5cd5e0;
  }
}
* { box-sizing: border-box; }
html { -webkit-text-size-adjust: 100%; }
body {
  margin: 0 auto; padding: 1rem; max-width: 66rem; background: var(--paper); color: var(--ink);
  font: 1rem/1.5 system-ui, sans-serif; overflow-wrap: anywhere;
}
h1 { font-size: 1.7rem; line-height: 1.2; margin: 0.5rem 0 1rem; }
h2 { font-size: 1.3rem; line-height: 1.25; margin: 2.5rem 0 0.75rem; padding-top: 0.75rem; border-top: 2px solid var(--rule); }
h3 { font-size: 1.08rem; margin: 1.75rem 0 0.5rem; }
p, ul, ol { margin: 0.5rem 0; max-width: 46rem; }
ul, ol { padding-left: 1.4rem; }
li { margin: 0.25rem 0; }
a { color: var(--link); }
a:focus-visible, [tabindex]:focus-visible { outline: 3px solid var(--link); outline-offset: 2px; }
.lead { font-size: 1.12rem; }
.faint { color: var(--faint); }
.good, .bad { font-weight: 600; }
.good { color: var(--good); }
.bad { color: var(--bad); }
dl { display: grid; grid-template-columns: repeat(auto-fit, minmax(8.5rem, 1fr)); gap: 0.5rem; margin: 1rem 0; }
dl > div { background: var(--shade); padding: 0.5rem 0.75rem; border-radius: 0.3rem; }
dt { color: var(--faint); font-size: 0.88rem; }
dd { margin: 0; font-size: 1.2rem; font-variant-numeric: tabular-nums; }
nav ul { list-style: none; padding: 0; display: flex; flex-wrap: wrap; gap: 0.25rem 1.25rem; }
.wide, pre {
  --cover: var(--paper); overflow-x: auto;
  background:
    linear-gradient(to right, var(--cover) 40%, transparent) left / 2.5rem 100% no-repeat local,
    linear-gradient(to left, var(--cover) 40%, transparent) right / 2.5rem 100% no-repeat local,
    linear-gradient(to right, var(--edge), transparent) left / 0.9rem 100% no-repeat scroll,
    linear-gradient(to left, var(--edge), transparent) right / 0.9rem 100% no-repeat scroll,
    var(--cover);
}
.wide { margin: 0.75rem 0 1.25rem; max-width: 100%; }
table { border-collapse: collapse; font-variant-numeric: tabular-nums; overflow-wrap: normal; }
caption { text-align: left; font-weight: 600; padding-bottom: 0.35rem; }
th, td { padding: 0.3rem 0.75rem; text-align: left; vertical-align: top; border-bottom: 1px solid var(--rule); }
th:first-child, td:first-child { padding-left: 0.35rem; }
thead th { border-bottom: 2px solid var(--rule); vertical-align: bottom; font-weight: 600; }
tbody th, tfoot th { font-weight: 500; }
tfoot th, tfoot td { border-top: 2px solid var(--rule); border-bottom: 0; font-weight: 600; }
.number { text-align: right; }
td.number { white-space: nowrap; }
td.words { min-width: 15rem; max-width: 32rem; }
tr.met { background: var(--shade); }
@media screen and (max-width: 30rem) {
  table { font-size: 0.88rem; }
  th, td { padding: 0.3rem 0.25rem; }
  td.words { min-width: 11rem; }
}
pre { --cover: var(--shade); padding: 0.6rem 0.75rem; margin: 0.4rem 0; border-radius: 0.3rem; line-height: 1.35; }
pre, code { font-family: ui-monospace, monospace; font-size: 0.88rem; }
.text { max-height: 24rem; overflow: auto; }
figure { margin: 1rem 0; max-width: 36rem; }
.picture { max-width: 40rem; }
.picture svg { min-width: 30rem; }
figure svg { display: block; width: 100%; height: auto; }
figcaption { color: var(--faint); font-size: 0.92rem; }
.chart text { fill: var(--ink); font: 13px system-ui, sans-serif; }
.chart .axis { stroke: var(--faint); stroke-width: 1; fill: none; }
.chart .grid { stroke: var(--rule); stroke-width: 1; fill: none; }
.chart .line { fill: none; stroke-width: 2.5; stroke-linejoin: round; }
footer { margin-top: 2.5rem; border-top: 1px solid var(--rule); color: var(--faint); font-size: 0.92rem; }
@media print {
  @page { margin: 16mm 14mm; }
  body { padding: 0; max-width: none; font-size: 10pt; line-height: 1.35; }
  .lead { font-size: 11pt; }
  dl { grid-template-columns: repeat(auto-fit, minmax(6rem, 1fr)); gap: 0; margin: 0.5rem 0; }
  dl > div { padding: 0.25rem 0.5rem 0.25rem 0; }
  dd { font-size: 12pt; }
  .wide, pre { background: var(--cover); }
  .wide { margin: 0.5rem 0 0.75rem; }
  ol p { margin: 0.2rem 0; }
  figure { max-width: 13cm; }
  h1 { font-size: 17pt; margin-top: 0; }
  h2 { font-size: 13pt; margin-top: 1.2rem; }
  h3 { font-size: 11pt; margin-top: 1rem; }
  nav { display: none; }
  a { color: inherit; text-decoration: none; }
  p, ul, ol { max-width: none; }
  pre { white-space: pre-wrap; padding: 0.15rem 0.5rem; margin: 0.2rem 0; font-size: 8pt; line-height: 1.25; }
  .wide, pre, .text { overflow: visible; max-height: none; }
  thead { display: table-header-group; }
  tr, figure, dl, li { break-inside: avoid; }
  h2, h3, caption { break-after: avoid; }
  .after-board { break-before: page; }
  th, td { padding: 0.15rem 0.5rem; }
  td.words { min-width: 0; max-width: none; }
}
"""
