# Prints a database of entries of all types, the same each time:
#
#   awk -v first=0 -v count=1400 -f tests/entries.awk
#
# It prints the entries `first` up to `first + count`. With `keys=1` it prints their citation keys instead. The last of each
# twenty is a volume, which two of the others cross-reference, so `first` and `count` should be multiples of twenty.
#
# Lengths follow TeX Live's tugboat.bib (4,839 entries): title_from has the deciles of its titles (37 bytes on average), and
# rest_from those of what plain.bst does not read of an entry (522 bytes of 792); people() follows its numbers of authors
# (92 % have one). That database has no abstracts, so here the abstract fills up what the other unread fields leave over.

function random(n) { seed = (seed * 69069 + 1) % 4294967296; return int(seed / 65536) % n }
function one_of(list, count) { return list[1 + random(count)] }
function field(name, value) { return ",\n  " name " = {" value "}" }
# between LIST: a length from the ten ranges between the list's eleven numbers, each range as likely as the others.
function between(list,  i) { i = 1 + random(10); return list[i] + random(list[i + 1] - list[i]) }

function key(place) { return sprintf("%s:TB%d-%d-%d", place % 20 == 19 ? "Volume" : "Paper", place / 400, place / 100 % 4 + 1, place) }

function person(  last, first) {
  last = one_of(lasts, last_count)
  first = one_of(firsts, first_count)
  if (random(40) == 0) return last ", Jr., " first
  if (random(20) == 0) return first " " one_of(vons, von_count) " " last
  if (random(6) == 0) return last ", " first
  if (random(12) == 0) return first " " substr("ABCDEFGHJKLMNPRST", 1 + random(17), 1) ". " last
  return first " " last
}

function people(  n, chance, text) {
  chance = random(1000)
  text = person()
  for (n = (chance < 83) + (chance < 22) + (chance < 6) + 8 * (chance < 2); n > 0; n--) text = text " and " person()
  return random(200) ? text : text " and others"
}

# words N: words of N bytes in all.
function words(n,  text) {
  text = one_of(nouns, noun_count)
  while (length(text) < n) text = text " " one_of(nouns, noun_count)
  text = substr(text, 1, n)
  sub(/ $/, "s", text)
  return text
}

function title(  n) {
  n = between(title_from)
  if (n > 20 && random(3) == 0) return "{\\TeX} and " words(n - 11)
  if (n > 26 && random(6) == 0) return "{\\'E}tudes in {" words(8) "}: " words(n - 25)
  return words(n)
}

function journal() { return ",\n  journal = " one_of(journals, journal_count) ",\n  volume = " 1 + random(90) ",\n  number = " 1 + random(12) }
function pages(  at) { at = 1 + random(900); return field("pages", at "--" at + random(30)) }
function date() { return ",\n  year = " 1900 + random(120) (random(2) ? ",\n  month = " one_of(months, 12) : "") }

# unread PLACE: the fields that plain.bst does not read.
function unread(place,  text, left) {
  left = between(rest_from)
  text = field("ISSN", "0896-" 1000 + random(9000)) field("ISSN-L", "0896-3207") field("bibdate", "Fri Jul 13 10:24:20 MDT " 1990 + random(30))
  text = text field("bibsource", "http://www.math.example.edu/pub/tex/bib/index-table-t.html#table;\n               http://www.math.example.edu/pub/tex/bib/table.bib")
  text = text field("URL", "https://example.org/TUGboat/tb" place ".pdf") ",\n  acknowledgement = ack"
  left -= length(text) + 17
  return text (left > 0 ? field("abstract", substr(abstract_text, 1, left)) : "")
}

function entry(place,  type, name) {
  type = place % 20
  name = "{" key(place)
  if (type == 19) return "@proceedings" name field("title", "Proceedings of " words(20)) field("booktitle", "Proceedings of " words(20)) field("editor", people()) field("publisher", "Press") date()
  if (type >= 17) return "@inproceedings" name field("author", people()) field("title", title()) pages() field("crossref", key(place - type + 19))
  if (type >= 8) return "@article" name field("author", people()) field("title", title()) journal() pages() date()
  if (type >= 5) return "@book" name field(random(3) ? "author" : "editor", people()) field("title", title()) field("publisher", words(12) " Press") field("address", "Z{\\\"u}rich") (random(2) ? field("edition", "second") : "") date()
  if (type == 4) return "@incollection" name field("author", people()) field("title", title()) field("booktitle", title()) field("editor", people()) field("publisher", "Springer") pages() date()
  if (type == 3) return (random(2) ? "@phdthesis" : "@mastersthesis") name field("author", person()) field("title", title()) field("school", "University of " words(8)) date()
  if (type == 2) return "@techreport" name field("author", people()) field("title", title()) field("institution", words(14) " Laboratory") field("number", "TR-" place) date()
  if (type == 1) return (random(2) ? "@manual" : "@booklet") name field("title", title()) field("author", person()) date()
  return (random(2) ? "@misc" : "@unpublished") name field("author", people()) field("title", title()) field("note", "With " words(18)) date()
}

BEGIN {
  first_count = split("Donald,Ada,Edsger,Barbara,Jean,{\\'E}mile,Frank,Oskar,Grace,S{\\o}ren,Tom,Maria,D. E.,A. M.,Nelson", firsts, ",")
  last_count = split("Knuth,Bzyl,Dijkstra,Liskov,Berry,G{\\\"o}del,Erd{\\H o}s,Neumann,Hoare,Lamport,Beeton,Raichle,Steele,Plass,Rokicki,Hagen", lasts, ",")
  von_count = split("von,de la,van der,von der,de", vons, ",")
  noun_count = split("numbers,machines,programs,proofs,letters,words,errors,trees,tables,lines,sets,graphs,fields,names,orders,styles,pages,books,journals,limits,sums,parts,texts,keys", nouns, ",")
  journal_count = split("jnum,jmach,{Annals of {\\'E}tude},\"Letters and {W}ords\"", journals, ",")
  split("jan,feb,mar,apr,may,jun,jul,aug,sep,oct,nov,dec", months, ",")
  split("3,13,18,21,26,32,38,44,54,67,130", title_from, ",")
  split("382,427,467,470,472,474,527,574,593,648,752", rest_from, ",")
  seed = 1 + first
  while (length(abstract_text) < 800) abstract_text = abstract_text "These words stand for an abstract, which no style here reads. "
  if (!keys && first == 0) print "@string{jnum = \"Journal of Numbers\"}\n@string{jmach = \"Communications of the \" # {{Machines}}}\n@string{ack = \"Somebody, Department of Mathematics, somewhere, with an address, a telephone, and thanks\"}\n@preamble{\"\\providecommand{\\url}[1]{\\texttt{#1}}\"}\n"
  for (place = first; place < first + count; place++) {
    if (keys) { if (place % 20 != 19) print key(place); continue }
    printf "%s%s\n}\n\n", entry(place), unread(place)
  }
}
