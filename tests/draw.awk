# Reports the figures of tests/measure:
#
#   awk -v kind=answer -f tests/draw.awk FIGURES                        a row for each database, with ranges over its styles
#   awk -v kind=table -v names="here bibtex" -f tests/draw.awk FIGURES  a row for each job, a figure for each program
#   awk -v kind=picture -f tests/draw.awk FIGURES                       a dot for each job (SVG)
#
# A line of the figures is WHERE|STYLE|PROGRAM|microseconds|instructions|kilobytes, WHERE|STYLE|edit|microseconds,
# WHERE|STYLE|ratio|ten thousandths or WHERE|STYLE|same|yes.

BEGIN { FS = "|" }

{
  if (!(($1, $2) in job)) {
    job[$1, $2] = ++jobs
    where_of[jobs] = $1
    style_of[jobs] = $2
    if (!($1 in place)) { place[$1] = ++places; name_of[places] = $1 }
    if (!($2 in order)) { order[$2] = ++styles; style_name[styles] = $2 }
  }
  i = job[$1, $2]
  if ($3 == "same") { same[i] = $4; next }
  if ($3 == "ratio") { ratio[i] = $4 / 10000; next }
  time[i, $3] = $4
  instructions[i, $3] = $5
  memory[i, $3] = $6
}

function number(n) { return sprintf(n < 10 ? "%.1f" : "%.0f", n) }
function quotient(a, b) { return a && b ? a / b : 0 }
function two(n) { return n ? sprintf("%.2f", n) : "-" }

# add N: N among the numbers of which range() and median() speak; 0 is none.
function clear() { count = 0 }
function add(n,  i) {
  if (!n) return
  for (i = ++count; i > 1 && values[i - 1] > n; i--) values[i] = values[i - 1]
  values[i] = n
}
function range(digits,  low, high) {
  if (!count) return "-"
  low = digits ? sprintf("%." digits "f", values[1]) : number(values[1])
  high = digits ? sprintf("%." digits "f", values[count]) : number(values[count])
  return low == high ? low : low " to " high
}
function median() { return count ? sprintf("%.2f", values[int((count + 1) / 2)]) : "-" }

# collect WHAT PLACE: adds a figure of each job of that place, or of every place.
function collect(what, where,  i) {
  clear()
  for (i = 1; i <= jobs; i++) {
    if (where != "" && where_of[i] != where) continue
    if (what == "ratio") add(ratio[i])
    else if (what == "instructions") add(quotient(instructions[i, "here"], instructions[i, "bibtex"]))
    else if (what == "memory") add(quotient(memory[i, "here"], memory[i, "bibtex"]))
    else if (what == "part") add(quotient(time[i, "edit"], time[i, "here"]))
    else if (what == "own") add(memory[i, "here"] / 1000)
    else if (what == "its") add(memory[i, "bibtex"] / 1000)
    else add(time[i, what] / 1000)
  }
}

# ranges WHAT PLACE: the figure of the fastest and of the slowest job of that place, or of the smallest and the largest.
function ranges(what, where, digits) { collect(what, where); return range(digits) }

# answer: a row for each database, and a line of all jobs.
function answer(  i, j, alike, all) {
  print "| Database, entries cited | Full run, ms | `bibtex`, ms | Ratio | Title edit, ms | Memory, MB | `bibtex`, MB | Same `.bbl` |"
  print "|---|---|---|---|---|---|---|---|"
  for (i = 1; i <= places; i++) {
    alike = all = 0
    for (j = 1; j <= jobs; j++) if (where_of[j] == name_of[i]) { all++; alike += same[j] == "yes" }
    printf "| %s | %s | %s | %s | %s | %s | %s | %d of %d |\n", name_of[i], ranges("here", name_of[i]), ranges("bibtex", name_of[i]), \
      ranges("ratio", name_of[i], 2), ranges("edit", name_of[i]), ranges("own", name_of[i]), ranges("its", name_of[i]), alike, all
  }
  collect("ratio")
  if (count) printf "\nThe median of the %d ratios is %s.", jobs, median()
  collect("instructions")
  if (count) printf " A full run takes %s times as many instructions as with `bibtex`.", range(2)
  collect("memory")
  if (count) printf " Dulshenko needs %s times as much memory.", range(1)
  collect("part")
  if (count) printf " A title edit takes %s times as long as a full run here.", range(2)
  print ""
}

# cell I WHAT: the figures of all programs for a job.
function cell(i, what,  j, n, text) {
  for (j = 1; j <= programs; j++) {
    n = what == "time" ? time[i, program[j]] / 1000 : what == "instructions" ? instructions[i, program[j]] / 1000000 : memory[i, program[j]] / 1000
    text = text (j > 1 ? "/" : "") (n ? number(n) : "-")
  }
  return text
}

function table(  i) {
  programs = split(names, program, " ")
  print "| Database | Style | Time, ms | Ratio | Title edit, ms | Million instructions | Memory, MB | Same `.bbl` |"
  print "|---|---|---|---|---|---|---|---|"
  for (i = 1; i <= jobs; i++)
    printf "| %s | %s | %s | %s | %s | %s | %s | %s |\n", where_of[i], style_of[i], cell(i, "time"), \
      two(ratio[i]), time[i, "edit"] ? number(time[i, "edit"] / 1000) : "-", \
      cell(i, "instructions"), cell(i, "memory"), same[i]
}

function text(x, y, anchor, words) { printf "<text x=\"%.1f\" y=\"%.1f\" text-anchor=\"%s\">%s</text>\n", x, y, anchor, words }
function line(x, top, bottom, colour) { printf "<line x1=\"%.1f\" y1=\"%d\" x2=\"%.1f\" y2=\"%d\" stroke=\"%s\"/>\n", x, top, x, bottom, colour }
function dot(x, y, colour, filled) {
  printf "<circle cx=\"%.1f\" cy=\"%.1f\" r=\"3.5\" stroke=\"%s\" stroke-width=\"1.5\" fill=\"%s\"/>\n", x, y, colour, filled ? colour : "white"
}
function x_of(r) { return 150 + 490 * r / most }

# picture: a band for each database, in it a row for each style: a full dot for a full run, an empty one for an edit.
function picture(  i, r, y, bottom, colours) {
  split("#0072b2 #d55e00 #009e73 #cc79a7 #e69f00 #56b4e9 #000000", colours, " ")
  collect("ratio")
  for (most = 1.5; count && most < values[count]; most += 0.5);
  bottom = 38 + 64 * places
  printf "<svg xmlns=\"http://www.w3.org/2000/svg\" width=\"660\" height=\"%d\" font-family=\"sans-serif\" font-size=\"12\">\n", bottom + 84
  print "<rect width=\"100%\" height=\"100%\" fill=\"white\"/>"
  for (i = 1; i <= places; i += 2) printf "<rect x=\"20\" y=\"%d\" width=\"620\" height=\"64\" fill=\"#f4f4f4\"/>\n", 64 * i - 26
  text(20, 20, "start", "Time divided by that of bibtex&#8217;s full run (1: as long as bibtex)")
  for (r = 0; r <= most; r += 0.25) {
    line(x_of(r), 32, bottom, r == 1 ? "#b03030" : "#dddddd")
    text(x_of(r), bottom + 16, "middle", r)
  }
  for (i = 1; i <= places; i++) text(140, 64 * i + 10, "end", name_of[i])
  for (i = 1; i <= jobs; i++) {
    y = 64 * place[where_of[i]] - 26 + 8 * order[style_of[i]]
    r = quotient(time[i, "edit"], time[i, "bibtex"])
    if (r) dot(x_of(r), y, colours[order[style_of[i]]], 0)
    if (ratio[i]) dot(x_of(ratio[i]), y, colours[order[style_of[i]]], 1)
  }
  for (i = 1; i <= styles; i++) {
    dot(24 + 150 * ((i - 1) % 4), bottom + 36 + 18 * int((i - 1) / 4), colours[i], 1)
    text(34 + 150 * ((i - 1) % 4), bottom + 40 + 18 * int((i - 1) / 4), "start", style_name[i])
  }
  text(20, bottom + 76, "start", "Full dots: a full run. Empty dots: changing a title in a session.")
  print "</svg>"
}

END { if (kind == "answer") answer(); else if (kind == "table") table(); else picture() }
