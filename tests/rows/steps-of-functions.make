# Prints a session in which a style runs the function f of each row of these tables. The report has the ticks, the
# bibliography the lines, and the log, which some rows ask for, has the messages and the counts of calls.
#
# A row begins with words, the style's commands after READ in their order:
#   first     ITERATE {first}, which gives the variables values, in 13 ticks
#   execute   EXECUTE {f}
#   iterate   ITERATE {f}, for the one entry of the database
#   show      ITERATE {show}, which ends the held line and writes the variables into one, in 19 ticks
#   log       no command: the log is asked for after the bibliography
# Each style ends with EXECUTE {newline$}, which ends the held line, in one tick. After the words come, with a | before
# each, the bodies of the functions f, book and default.type, as far as the style has them.
export LC_ALL=C

# put NAME TEXT: the command that makes the text with a line feed that of the name.
put() {
  printf 'write %s %d\n%s\n' "$1" $((${#2} + 1)) "$2"
}

# defined NAME BODY: a function, or an empty line where there is no body.
defined() {
  if [ -n "$2" ]; then printf 'FUNCTION {%s} {%s}\n' "$1" "$2"; else echo; fi
}

# style WORDS F BOOK DEFAULT: a row's style. Its first command after READ is in line 10.
style() {
  local word
  cat << 'END'
ENTRY {title year} {number} {label}
INTEGERS {count} STRINGS {all}
FUNCTION {first} {#7 'number := "Label" 'label := #8 'count := "all" 'all :=}
FUNCTION {show} {newline$ count int.to.str$ write$ " " write$ all write$
  " " write$ number int.to.str$ write$ " " write$ label write$ newline$}
END
  defined default.type "$4"
  defined book "$3"
  printf 'FUNCTION {f} {%s}\nREAD\n' "$2"
  for word in $1; do
    case $word in
      first | show) echo "ITERATE {$word}" ;;
      iterate) echo "ITERATE {f}" ;;
      execute) echo "EXECUTE {f}" ;;
    esac
  done
  echo 'EXECUTE {newline$}'
}

# rows DATABASE: the rows of standard input, over a database.
rows() {
  local words f book default
  put x.bib "$1"
  while IFS='|' read -r words f book default; do
    put s.bst "$(style "$words" "$f" "$book" "$default")"
    echo bbl
    [[ $words != *log* ]] || echo blg
  done
  echo "remove s.bst"
}

put job.aux '\citation{*}
\bibdata{x}
\bibstyle{s}'

# Steps without an entry: the database has none.
rows '' << 'END'
execute |
execute log | cite$ write$ newline$ #1
execute log | #1 "t" 'skip$ { } stack$
execute log | #2147483647 #1 + int.to.str$ write$ newline$
execute log | call.type$
execute | #1 { "a" } { "b" } if$ write$
execute | #0 { "a" } { "b" } if$ write$
execute | #-5 { "a" } { "b" } if$ write$
execute | #1 'skip$ { } if$
execute | #1 { } 'skip$ if$
execute log | "t" { } { } if$
execute log | #1 #1 { } if$
execute log | #1 { } #1 if$
execute log | { } { } if$
execute | #2 'count := { count } { "x" write$ count #1 - 'count := } while$
execute | { #0 } { "x" write$ } while$
execute | { #-1 } { "x" write$ } while$
execute log | { } { } while$
execute log | { "t" } { } while$
execute log | #1 #2 { } { } while$
execute log | { } #1 while$
execute log | 'skip$ while$
execute | skip$ skip$
execute execute | skip$ skip$
END

# Steps of an entry whose type has no function.
rows '@misc{key, title = {Title}}' << 'END'
iterate | "x" write$ cite$ write$ newline$ | cite$ write$ | "d" write$
first iterate | title write$ label write$ all write$ | cite$ write$ | "d" write$
iterate log | year write$ | cite$ write$ | "d" write$
first iterate | number count + int.to.str$ write$ | cite$ write$ | "d" write$
iterate log | year stack$ | cite$ write$ | "d" write$
iterate log | 'title stack$ | cite$ write$ | "d" write$
iterate log | title warning$ | cite$ write$ | "d" write$
iterate | type$ write$ | cite$ write$ | "d" write$
iterate | call.type$ | cite$ write$ | "d" write$
iterate | call.type$ | cite$ write$
iterate | book | cite$ write$ | "d" write$
first iterate log | #1 'number := number int.to.str$ write$ "t" 'label := label write$ #2 'label := | cite$ write$ | "d" write$
END

# Steps of an entry whose type has the function book.
rows '@book{key, title = {Title}}' << 'END'
iterate | type$ write$ | cite$ write$ | "d" write$
iterate | call.type$ | cite$ write$ | "d" write$
iterate log | cite$ write$ skip$ #1 'skip$ 'skip$ if$ book + write$ call.type$ | cite$ write$ newline$
first iterate show | cite$ write$ skip$ #1 'skip$ 'skip$ if$ book + write$ call.type$ | cite$ write$ newline$
END

# Steps that pass a limit, of an entry whose type has the function f.
rows '@f{key, title = {Title}}' << 'END'
iterate log | { #1 } { skip$ } while$
iterate log | skip$ call.type$
iterate log | { #1 } { #1 'skip$ 'skip$ if$ } while$
iterate log | "a" { #1 } { duplicate$ * } while$
iterate log | { #1 } { #1 } while$
iterate log | #1 { duplicate$ } { duplicate$ } while$
END

echo quit
