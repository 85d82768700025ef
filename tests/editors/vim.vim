" Drives Vim or Neovim through a session of writing, by keys that are typed, and writes what it saw to the file `said`. It is
" started in a folder with a copy of the example, with EDITORS, PROGRAM, PATIENCE, and STEPS, how many steps are taken.
" A step is [name, what to do, what must become true]; one that isn't true within ten seconds ends the session.

set nocompatible startofline hidden noswapfile encoding=utf-8 fileencodings=utf-8
scriptencoding utf-8
let &runtimepath = $EDITORS . '/vim,' . &runtimepath
runtime plugin/bibtex_live.vim
let g:bibtex_live_program = $PROGRAM
let g:bibtex_live_interval = 100
let g:bibtex_live_patience = str2nr($PATIENCE)

function! Shown()
  return getbufline(bufnr('bibliography of'), 1, '$')
endfunction

function! Shows(line)
  return index(Shown(), a:line) >= 0
endfunction

" The first line of the window.
function! Top()
  let window = getwininfo(bufwinid(bufnr('bibliography of')))[0]
  return get(Shown(), window.topline - 1, '')
endfunction

" The quickfix list, as TYPE:FILE:LINE:TEXT.
function! Messages()
  return map(getqflist(), 'v:val.type . ":" . fnamemodify(bufname(v:val.bufnr), ":t") . ":" . v:val.lnum . ":" . v:val.text')
endfunction

function! HasMessage(message)
  return index(Messages(), a:message) >= 0
endfunction

" The lines of a file that have a sign.
function! Signs(file)
  return map(sign_getplaced(a:file, {'group': '*'})[0].signs, 'v:val.lnum')
endfunction

function! Type(keys)
  call feedkeys(a:keys, 't')
endfunction

" The numbers of the programs that this editor runs.
function! Programs()
  if has('nvim')
    return map(filter(nvim_list_chans(), 'v:val.stream ==# "job"'), 'jobpid(v:val.id)')
  endif
  return map(filter(job_info(), 'job_status(v:val) ==# "run"'), 'job_info(v:val).process')
endfunction

function! Kill()
  let g:killed = Programs()[0]
  call system('kill -9 ' . g:killed)
endfunction

function! Aux(lines)
  let lines = map(readfile('paper.aux'), 'substitute(v:val, "bibdata{library}", "bibdata{library,more}", "")')
  call writefile(lines + a:lines, 'paper.aux')
endfunction

let s:steps = [
\ ['the bibliography is shown',
\   'edit library.bib | BibtexLive',
\   'Shows("\\newblock {\\em Theory of Games and Economic Behavior}.")'],
\ ['a word that is typed into a title is in the window',
\   'call Type("/Theory of\<CR>eea Zero-Sum")',
\   'Shows("\\newblock {\\em Theory of Zero-Sum Games and Economic Behavior}.") && Top() ==# "\\bibitem[vNM44]{neumann:games}"'],
\ ['a letter of two bytes',
\   'call Type("\<Esc>/Behavior\<CR>ea für alle\<Esc>")',
\   'Shows("\\newblock {\\em Theory of Zero-Sum Games and Economic Behavior für alle}.")'],
\ ['an entry without the comma after its key has its error at the next line',
\   'call Type(":17\<CR>$x")',
\   'HasMessage("E:library.bib:18:I was expecting a `,'' or a `}''") && Signs("library.bib") ==# [18]'],
\ ['the list leads there',
\   'cfirst',
\   'bufname("%") ==# "library.bib" && line(".") == 18'],
\ ['and none once it is mended',
\   'call Type("u")',
\   'Messages() ==# [] && Signs("library.bib") ==# [] && Shows("\\newblock {\\em Theory of Zero-Sum Games and Economic Behavior für alle}.")'],
\ ['a macro that is not defined has its warning',
\   'call Type(":13\<CR>$iw\<Esc>")',
\   'Messages() ==# ["W:library.bib:13:string name \"aww\" is undefined"]'],
\ ['a text with CR and LF in Latin-1',
\   'call Type("u") | set fileformat=dos fileencoding=latin1 | call Type(":19\<CR>f}i und mehr\<Esc>")',
\   'Messages() ==# [] && Shows("  mehr}.") && Shows("\\newblock {\\em Theory of Zero-Sum Games and Economic Behavior für alle und")'],
\ ['the program is killed, and comes back with what is typed on',
\   'call Kill() | call Type(":12\<CR>2f}i again\<Esc>")',
\   'Shows("\\newblock {\\em The {\\TeX}book again}.") && len(Programs()) == 1 && Programs()[0] != g:killed'],
\ ['the entry under the cursor alone',
\   'BibtexLiveView entry | call Type(":28\<CR>")',
\   'Shown() ==# ["\\bibitem[Ste90]{steele:lisp}", "Guy~L. Steele, Jr.", "\\newblock {\\em Common {Lisp}: The Language}.", "\\newblock Digital Press, second edition, 1990."] && Top() ==# Shown()[0]'],
\ ['one whose label has braces',
\   'call Type(":32\<CR>")',
\   'get(Shown(), 0) ==# "\\bibitem[G{\\\"o}d31]{goedel:saetze}" && get(Shown(), 1) ==# "Kurt G{\\\"o}del."'],
\ ['an .aux file that LaTeX wrote, with one more citation',
\   'BibtexLiveView all | call Aux(["\\citation{lamport:clocks}", "\\citation{new:one}"])',
\   'Shows("\\bibitem[Lam78]{lamport:clocks}")'],
\ ['a database that is not there, and a citation without an entry',
\   'execute ""',
\   'Messages() ==# ["E:paper.aux:12:I couldn''t open database file more.bib", "W:paper.aux:15:I didn''t find a database entry for \"new:one\""]'],
\ ['both are well once the file is there',
\   'call writefile(["@misc{new:one, title = {A New One}, year = 2001}"], "more.bib")',
\   'Messages() ==# [] && Shows("\\newblock A new one.")'],
\ ['a database that is too large keeps its text',
\   'call writefile(["@misc{new:one, title = {" . repeat("x", 1048576) . "}}"], "more.bib")',
\   'Messages() ==# ["E:more.bib:1:more.bib isn''t sent: it has more than 1048576 bytes"] && Shows("\\newblock A new one.")'],
\ ['and a smaller one is sent again, NUL bytes too',
\   'call writefile(["@misc{new:one, title = {One\n and no more}}"], "more.bib")',
\   'Messages() ==# [] && Shows("\\newblock One and no more.") == 0 && match(Shown(), "newblock One") >= 0'],
\ ['a style with a fault has its error',
\   'edit labels.bst | call Type("ggOFOO\<Esc>")',
\   'Messages() ==# ["E:labels.bst:1:This isn''t a command"]'
\     . ' && Shows("\\newblock {\\em The {\\TeX}book again}.") && bibtex_live#StatusLine(bufnr("bibliography of")) =~# "last good"'],
\ ['and none once it is mended',
\   'call Type("u")',
\   'Messages() ==# [] && Shows("\\newblock {\\em The {\\TeX}book again}.")'],
\ ['the end',
\   'BibtexLiveStop',
\   'Programs() ==# []'],
\ ['a paper whose name the program does not take',
\   'call writefile(readfile("paper.aux") + ["\\citation{no:one}"], "my paper.aux") | BibtexLive my paper.aux',
\   'match(getbufline(bufnr("bibliography of my paper"), 1, "$"), "texbook") >= 0 && Messages() ==# ["W:my paper.aux:16:I didn''t find a database entry for \"no:one\""]'],
\ ['of the citations without an entry only the first, while a database is missing',
\   'call writefile(["\\relax", "\\bibstyle{labels}", "\\bibdata{lost}"] + map(range(30), "''\\citation{lost:'' . v:val . ''}''"), "lost.aux") | BibtexLive lost.aux',
\   'Messages() ==# ["E:lost.aux:3:I couldn''t open database file lost.bib", "E:lost.aux:1:I found no database files---while reading file lost.aux", "W:lost.aux:4:I didn''t find a database entry for \"lost:0\" (nor for 29 others, while a database is missing)"]'],
\ ['of two papers the one that names the database',
\   'call map(["first", "second"], "writefile([''\\bibstyle{labels}'', ''\\bibdata{'' . v:val . ''}''], v:val . ''.aux'')") | call system("touch -d ''1 hour ago'' first.aux") | edit first.bib | BibtexLive',
\   'bufnr("bibliography of first") > 0'],
\ ]

let s:at = 0
let s:acted = 0

function! Finish(words)
  call writefile(a:words, 'said', 'a')
  qall!
endfunction

function! Tick(timer)
  if s:at >= min([len(s:steps), str2nr($STEPS)])
    call timer_stop(a:timer)
    return Finish(['done, started again ' . (len(split(execute('messages'), 'it is started again', 1)) - 1) . ' times'])
  endif
  let [name, action, wanted] = s:steps[s:at]
  if !s:acted
    let s:acted = 1
    let s:since = reltime()
    execute action
  elseif eval(wanted)
    call writefile(['passed: ' . name], 'said', 'a')
    let s:at += 1
    let s:acted = 0
  elseif reltimefloat(reltime(s:since)) > 10
    call timer_stop(a:timer)
    call Finish(['FAILED: ' . name, 'The window has:'] + Shown() + ['The messages are:'] + Messages()
          \ + split(execute('messages'), "\n"))
  endif
endfunction

call timer_start(20, 'Tick', {'repeat': -1})
