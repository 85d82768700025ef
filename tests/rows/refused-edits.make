# The input is too long to be stored: this prints it.
printf '%s' 'write job.aux 40
\citation{a,b}
\bibdata{x}
\bibstyle{s}
bbl
blg
status
write s.bst 84
ENTRY {title}{}{}
FUNCTION {misc} {title write$ newline$}
READ
ITERATE {call.type$}
bbl
blg
status
write x.bib 44
@misc{a, title = {A}}
@misc{b, title = {B}}
bbl
blg
status
splice x.bib 0 45 0
bbl
blg
status
remove y.bib
bbl
blg
status
write a!b 1048577
'
printf '%*s' 1048577 '' | tr ' ' 'x'
printf '%s' 'bbl
blg
status
write y.bib 1048577
'
printf '%*s' 1048577 '' | tr ' ' 'x'
printf '%s' 'bbl
blg
status
write more-1 1
1write more-2 1
1write more-3 1
1write more-4 1
1write more-5 1
1write more-6 1
1write more-7 1
1write more-8 1
1write more-9 1
1write more-10 1
1write more-11 1
1write more-12 1
1write more-13 1
1write more-14 1
1write more-15 1
1write more-16 1
1write more-17 1
1write more-18 1
1write more-19 1
1write more-20 1
1write more-21 1
1write more-22 1
1write more-23 1
1write more-24 1
1write more-25 1
1write more-26 1
1write more-27 1
1write more-28 1
1write more-29 1
1write more-30 1
1write more-31 1
1write more-32 1
1write more-33 1
1write more-34 1
1write more-35 1
1write more-36 1
1write more-37 1
1write more-38 1
1write more-39 1
1write more-40 1
1write more-41 1
1write more-42 1
1write more-43 1
1write more-44 1
1write more-45 1
1write more-46 1
1write more-47 1
1write more-48 1
1write more-49 1
1write more-50 1
1write more-51 1
1write more-52 1
1write more-53 1
1write more-54 1
1write more-55 1
1write more-56 1
1write more-57 1
1write more-58 1
1write more-59 1
1write more-60 1
1write more-61 1
1bbl
blg
status
write y.bib 1
2bbl
blg
status
write x.bib 44
@misc{a, title = {Z}}
@misc{b, title = {B}}
bbl
blg
status
remove more-1
bbl
blg
status
write y.bib 1
2bbl
blg
status
quit
'
