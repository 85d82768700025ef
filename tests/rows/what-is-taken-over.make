# Prints a session that shows for which changes a step is run again, and for which it is taken over. Each row of these
# tables is a thing that is changed (NAME=VALUE, or - for nothing), and the body of a function f. The style runs f for an
# entry after the function first, which gives the variables their values and writes what is held, all from fields that
# f never reads; then the thing is changed, and changed back. So each row has three reports: that of the style, for
# which both steps are run; that of the change, for which f is run or taken over; that of the change back. Where first
# is run again, that is one step more, of 21 ticks.
export LC_ALL=C

# put NAME TEXT: the command that makes the text with a line feed that of the name.
put() {
  printf 'write %s %d\n%s\n' "$1" $((${#2} + 1)) "$2"
}

# citing KEY: the .aux file.
citing() {
  printf '%s\n' "\\citation{$1}" '\bibdata{x}' '\bibstyle{s}'
}

# database TYPE CHANGE: the database with its entries of the type. NAME=VALUE changes a thing of it, - nothing.
database() {
  local type=$1 title=Title year='' number=7 label=Label count=8 all=all held='' preamble=pre key
  [ "$2" = - ] || local "$2"
  printf '@preamble{"%s"}\n' "$preamble"
  for key in key yek; do
    printf '@%s{%s, title = {%s}' "$type" "$key" "$title"
    [ -z "$year" ] || printf ', year = {%s}' "$year"
    printf ',\n  first.number = {%s}, first.label = {%s}, first.count = {%s}, first.all = {%s}, first.held = {%s}}\n' \
      "$number" "$label" "$count" "$all" "$held"
  done
}

# style BODY CHANGE..: the style with the body of f. Each NAME=VALUE changes a thing of it; row is a comment, so that
# two rows have two styles.
style() {
  local body=$1 numbers=count command='ITERATE {f}' last='' row=-
  shift
  while [ $# -gt 0 ]; do
    local "$1"
    shift
  done
  printf '%s\n' 'ENTRY {title year first.number first.label first.count first.all first.held} {number} {label}' \
    "INTEGERS {$numbers}" 'STRINGS {all}'
  cat << 'END'
FUNCTION {first}
{ first.number chr.to.int$ #48 - 'number :=
  first.label 'label :=
  first.count chr.to.int$ #48 - 'count :=
  first.all 'all :=
  first.held write$ }
FUNCTION {show} {newline$ count int.to.str$ write$ " " write$ all write$
  " " write$ number int.to.str$ write$ " " write$ label write$ newline$}
FUNCTION {default.type} {year pop$}
FUNCTION {book} {title write$}
END
  printf '%s\n' "FUNCTION {f} {$body}" READ 'ITERATE {first}' "$command" "$last" "% $row"
}

# changed TYPE CHANGE: the edit that makes a change, of the .aux file where the key is changed.
changed() {
  case $2 in
    key=*) put job.aux "$(citing "${2#key=}")" ;;
    *) put x.bib "$(database "$1" "$2")" ;;
  esac
}

# rows TYPE LAST: the rows of standard input, for an entry of the type. Where LAST, a last command, shows what f left,
# the bibliography is asked for after the change.
rows() {
  local change body
  put x.bib "$(database "$1" -)"
  while IFS='|' read -r change body; do
    change=${change% }
    body=${body# }
    put s.bst "$(style "$body" "last=$2" "row=$change")"
    changed "$1" "$change"
    [ -z "$2" ] || echo bbl
    case $change in
      key=*) changed "$1" key=key ;;
      *) changed "$1" - ;;
    esac
  done
  echo "remove s.bst"
}

put job.aux "$(citing key)"

# An entry whose type has no function, for which call.type$ runs default.type. The type other has none either, and the
# type book has one.
rows misc '' << 'END'
- | skip$
key=yek | skip$
key=KEY | skip$
title=Other | title write$
year=1990 | title write$
year=1990 | year write$
title=Other | skip$
title=Other | 'title pop$
title=Other | { title } pop$
title=Other | call.type$
year=1990 | call.type$
type=other | call.type$
type=book | call.type$
type=other | type$ write$
type=other | cite$ write$
type=book | cite$ write$
number=6 | number int.to.str$ write$
label=other | number int.to.str$ write$
label=other | label write$
number=6 | label write$
count=9 | #1 'count :=
all=one | #1 'count :=
all=one | all write$
count=9 | all write$
held=held | "t" write$
held=held | newline$
held=held | cite$ pop$
preamble=erp | preamble$ pop$
preamble=erp | cite$ pop$
END

# An entry whose type has a function.
rows book '' << 'END'
title=Other | call.type$
year=1990 | call.type$
label=other | call.type$
END

# The variables that f leaves when it is taken over: those that it may come to are as it left them, the others as they
# are now. A third step, of show, writes them; it is run again, in 19 ticks, where one of them or what is held changed.
rows misc 'ITERATE {show}' << 'END'
- | #3 'count := title write$
all=one | #3 'count := title write$
count=9 | "x" 'all := #2 'number :=
label=other | "x" 'all := #2 'number :=
count=9 | cite$ write$
number=6 | cite$ write$
held=held | cite$ 'title pop$ pop$
END

# Another function, a step without an entry, a variable more: the style is another text, and all steps are run.
put x.bib "$(database misc -)"
for change in 'command=ITERATE {book}' 'command=EXECUTE {f}' 'numbers=count more'; do
  put s.bst "$(style 'skip$')"
  put s.bst "$(style 'skip$' "$change")"
done

echo quit
