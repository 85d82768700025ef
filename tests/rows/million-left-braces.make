# The input is too long to be stored: this prints it.
printf '%s' 'write job.aux 38
\citation{a}
\bibdata{x}
\bibstyle{s}
bbl
blg
status
write s.bst 84
ENTRY {title}{}{}
FUNCTION {misc} {title write$ newline$}
READ
ITERATE {call.type$}
bbl
blg
status
write x.bib 1048576
@misc{a, title = '
printf '%*s' 1048559 '' | tr ' ' '{'
printf '%s' 'bbl
blg
status
quit
'
