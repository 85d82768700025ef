# The input is too long to be stored: this prints it. Each style comes up to a limit of the stack, of a text or of the
# held line, or passes it.

# letters N: a style's text of N letters.
letters() {
  printf '"'
  printf '%*s' "$1" '' | tr ' ' 'a'
  printf '"'
}

# style NAME BODY..: writes a style that executes these functions, and asks for the log and the status.
style() {
  local text='ENTRY {} {} {}
FUNCTION {misc} {}
READ
'
  while [ $# -gt 0 ]; do
    text+="FUNCTION {$1} {$2}
EXECUTE {$1}
"
    shift 2
  done
  printf 'write s.bst %d\n%sblg\nstatus\n' "${#text}" "$text"
}

printf '%s' 'write job.aux 38
\citation{a}
\bibdata{x}
\bibstyle{s}
write x.bib 8
@misc{a}'

full=$(printf '#0 %.0s' {1..1000})
for name in cite type duplicate preamble quote; do
  style "$name.on.a.full.stack" "\"$name\$ on a full stack\" top\$ $full$name\$"
done

most=$(letters 65535)
all=$(letters 65536)
style join.up.to.the.limit '"* of 65535 letters and 1" top$ '"$most"' "a" * text.length$ stack$'
style join.over.the.limit '"* of 65536 letters and 1" top$ '"$all"' "a" * text.length$ stack$'
style add.period.up.to.the.limit '"add.period$ of 65535 letters" top$ "" '"$most"' add.period$ text.length$ stack$'
style add.period.over.the.limit '"add.period$ of 65536 letters" top$ "" '"$all"' add.period$ text.length$ stack$'

style held.line.up.to.the.limit '"write$ of a letter after 65535" top$ '"$most"' write$ "a" write$' \
  held.line.over.the.limit '"write$ of one letter more" top$ "a" write$'
style held.line.over.the.limit '"write$ of a letter after 65536" top$ '"$all"' write$ "a" write$'
echo quit
