# The input is too long to be stored: this prints it.
printf '%s' 'bbl
blg
status
write a!b 3
xyzbbl
blg
status
write x.bib 1048577
'
printf '%*s' 1048577 '' | tr ' ' 'x'
printf '%s' 'bbl
blg
status
splice y.bib 0 0 2000000
'
printf '%*s' 2000000 '' | tr ' ' 'x'
printf '%s' 'bbl
blg
status
xxxxxxxxxxxxxxxxxxxxxxxxxxxxxxxxxxxxxxxxxxxxxxxxxxxxxxxxxxxxxxxxxxxxxxxxxxxxxxxxxxxxxxxxxxxxxxxxxxxxxxxxxxxxxxxxxxxxxxxxxxxxxxxxxxxxxxxxxxxxxxxxxxxxxxxxxxxxxxxxxxxxxxxxxxxxxxxxxxxxxxxxxxxxxxxxxxxxxxxxxxxxxxxxxxxxxxxxxxxxxxxxxxxxxxxxxxxxxxxxxxxxxxxxxxxxxxxxx
bbl
blg
status
quit
'
