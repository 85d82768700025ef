# The input is too long to be stored: this prints it.
printf '%s' 'write job.aux 38
\citation{a}
\bibdata{x}
\bibstyle{s}
bbl
blg
status
write x.bib 8
@misc{a}bbl
blg
status
write s.bst 213
FUNCTION {f} {{{{{{{{{{{{{{{{{{{{{{{{{{{{{{{{{{{{{{{{{{{{{{{{{{{{{{{{{{{{{{{{{{{{{{{{{{{{{{{{{{{{{{{{{{{{{{{{{{{{}}}}}}}}}}}}}}}}}}}}}}}}}}}}}}}}}}}}}}}}}}}}}}}}}}}}}}}}}}}}}}}}}}}}}}}}}}}}}}}}}}}}}}}}}}}}}}}}}}}}bbl
blg
status
write s.bst 215
FUNCTION {f} {{{{{{{{{{{{{{{{{{{{{{{{{{{{{{{{{{{{{{{{{{{{{{{{{{{{{{{{{{{{{{{{{{{{{{{{{{{{{{{{{{{{{{{{{{{{{{{{{{{{{}}}}}}}}}}}}}}}}}}}}}}}}}}}}}}}}}}}}}}}}}}}}}}}}}}}}}}}}}}}}}}}}}}}}}}}}}}}}}}}}}}}}}}}}}}}}}}}}}}}}}bbl
blg
status
write s.bst 200013
FUNCTION {f} '
printf '%*s' 100000 '' | tr ' ' '{'
printf '%*s' 100000 '' | tr ' ' '}'
printf '%s' 'bbl
blg
status
quit
'
