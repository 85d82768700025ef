" bibtex_live.vim: keeps `bibtex --resident PAPER` beside Vim or Neovim, sends it each change, and shows the bibliography
" and the messages.   :help bibtex-live
"
" A paper is a dictionary. At most one command of it is in flight (`asked`); when its answer is there, `s:Pump` compares
" the texts as they are now with those that the program has, and sends the next difference. So the newest text wins, and
" what was typed in between is never sent by itself.
"
" Comparing a megabyte after each letter takes a quarter of a second, so the editor says which lines changed (a record):
" the text and the change that is sent are made of these lines alone. Each text has a number. A change starts from the
" text of one number (`base`), and is sent only if the program has that text.

let s:cpo_save = &cpo
set cpo&vim

let s:papers = {}       " by the path of the .aux file
let s:latest = {}       " the paper that was started last
let s:resolved = {}     " paths without links, by path
let s:records = {}      " what changed in a buffer since its text was read, by its number
let s:count = 0         " the number of the latest text
let s:most_bytes = 1048576
let s:reasons = {
      \ 1: 'its name may have only 1 to 64 of the characters A-Z a-z 0-9 . - _ + /',
      \ 2: 'the program has no such file',
      \ 3: 'the change lies outside of the text',
      \ 4: 'it has more than 1048576 bytes',
      \ 5: 'the program has 64 files already',
      \ 6: 'the program is out of memory'}

function! s:Option(name, default) abort
  return get(g:, 'bibtex_live_' . a:name, a:default)
endfunction

function! s:Warn(words) abort
  echohl WarningMsg
  echomsg 'bibtex-live: ' . a:words
  echohl None
endfunction

" --- Commands ---

function! bibtex_live#Start(argument) abort
  if !(has('nvim-0.7') || has('job') && has('channel') && has('timers') && exists('*deletebufline'))
    return s:Warn('Vim 8.1.0039 or later is needed, with +job, +channel and +timers, or Neovim 0.7 or later')
  endif
  let aux = a:argument ==# '' ? s:Guess() : fnamemodify(a:argument, ':p')
  if aux ==# ''
    return s:Warn('which paper? :BibtexLive PAPER.aux')
  endif
  let aux = substitute(aux, '\.tex$', '', '')
  let aux = resolve(aux =~# '\.aux$' ? aux : aux . '.aux')
  let title = fnamemodify(aux, ':t:r')
  " The program opens no file, so that a paper can have any name there.
  let name = s:IsName(title . '.aux') ? title : 'paper'
  if !filereadable(aux)
    return s:Warn('there is no ' . aux . ': run latex first')
  elseif !executable(s:Option('program', 'bibtex'))
    return s:Warn(s:Option('program', 'bibtex') . ' isn''t a program: set g:bibtex_live_program')
  endif
  if !has_key(s:papers, aux)
    let s:papers[aux] = {'aux': aux, 'title': title, 'name': name, 'names': [name . '.aux'], 'texts': {},
          \ 'places': {name . '.aux': aux},
          \ 'folders': [fnamemodify(aux, ':h'), getcwd()], 'unknown': {}, 'job': v:null, 'ends': [],
          \ 'bbl': '', 'blg': '', 'old': 0, 'moved': 1, 'key': '', 'view': s:Option('view', 'all'), 'messages': [], 'items': [], 'list': 0,
          \ 'refusals': {}}
  endif
  let s:latest = s:papers[aux]
  let s:latest.resting = 0
  call s:OpenWindow(s:latest)
  call s:Watch()
  call s:Pump(s:latest)
endfunction

" The .aux file of the present buffer: that of its `% !TEX root`, its own, that of its name, the newest one that names it, or
" the newest one that names databases: in its folder, in an output folder of that, or in the folder above.
function! s:Guess() abort
  let path = expand('%:p')
  let folder = path ==# '' ? getcwd() : fnamemodify(path, ':h')
  for line in getline(1, 20)
    let root = matchstr(line, '\c^\s*%\s*!\s*tex\s\+root\s*=\s*\zs.\{-}\ze\s*$')
    if root !=# ''
      let path = resolve(fnamemodify((root[0] ==# '/' ? '' : folder . '/') . substitute(root, '\c\.tex$', '', '') . '.tex', ':p'))
      let folder = fnamemodify(path, ':h')
      break
    endif
  endfor
  if path =~# '\.\%(aux\|tex\)$'
    for place in [folder] + s:Outputs(folder)
      let aux = place . '/' . fnamemodify(path, ':t:r') . '.aux'
      if filereadable(aux) && s:NamesDatabases(aux)
        return aux
      endif
    endfor
  endif
  let all = []
  for place in [folder, fnamemodify(folder, ':h')]
    let found = []
    for inner in [place] + s:Outputs(place)
      let found += filter(glob(inner . '/*.aux', 1, 1), 's:NamesDatabases(v:val)')
    endfor
    let all += sort(found, {a, b -> getftime(b) - getftime(a)})
  endfor
  return get(filter(copy(all), 's:Names(v:val, path)'), 0, get(all, 0, ''))
endfunction

" Whether an .aux file has a file as a database, as the style, or as a part of the paper.
function! s:Names(aux, path) abort
  let kind = fnamemodify(a:path, ':e')
  let command = get({'bib': 'bibdata', 'bst': 'bibstyle'}, kind, '@input')
  let name = escape(fnamemodify(a:path, ':t:r'), '\.*$^~[]') . (command ==# '@input' ? '\.aux' : '\%(\.' . kind . '\)\=')
  return match(readfile(a:aux), '^\\' . command . '{\%([^}]*[,/]\)\=' . name . '[,}]') >= 0
endfunction

" The folders in which LaTeX may write the files of a folder: that of its latexmkrc, and the usual ones.
function! s:Outputs(folder) abort
  let names = ['build', 'out', 'output', 'aux', '.aux', 'tmp']
  for rc in ['latexmkrc', '.latexmkrc']
    if filereadable(a:folder . '/' . rc)
      for line in readfile(a:folder . '/' . rc, '', 200)
        let name = matchstr(line, '^\s*\$\%(aux\|out\)_dir\s*=\s*["'']\zs[^"'']\+\ze["'']')
        let names = name ==# '' ? names : [name] + names
      endfor
    endif
  endfor
  return filter(map(names, 'v:val[0] ==# "/" ? v:val : a:folder . "/" . v:val'), 'isdirectory(v:val)')
endfunction

function! s:NamesDatabases(aux) abort
  return match(readfile(a:aux), '^\\bibdata{') >= 0
endfunction

function! bibtex_live#Views(lead, line, at) abort
  return filter(['all', 'entry', 'log'], 'stridx(v:val, a:lead) == 0')
endfunction

function! bibtex_live#View(view) abort
  let paper = s:Here()
  if empty(paper) || index(['all', 'entry', 'log'], a:view) < 0
    return s:Warn('the views are all, entry and log, after :BibtexLive')
  endif
  let paper.view = a:view
  call s:OpenWindow(paper)
  call s:Show(paper)
endfunction

function! bibtex_live#Refresh() abort
  let s:resolved = {}
  for paper in values(s:papers)
    let [paper.unknown, paper.texts, paper.refusals, paper.resting] = [{}, {}, {}, 0]
    call s:Pump(paper)
  endfor
endfunction

function! bibtex_live#Stop() abort
  let paper = s:Here()
  if empty(paper)
    return
  endif
  call remove(s:papers, paper.aux)
  let s:latest = get(values(s:papers), 0, {})
  call s:Drop(paper)
endfunction

" The paper that the present buffer belongs to: it uses its file, or its folder is the nearest; else the latest one. Of
" several that use it, the one that was started or whose window was entered last.
function! s:Here() abort
  let path = s:Resolved(expand('%:p'))
  let [found, longest] = [s:latest, 0]
  for paper in (empty(s:latest) ? [] : [s:latest]) + values(s:papers)
    let folder = paper.folders[0] . '/'
    if index(values(paper.places), path) >= 0 || bufnr('%') == get(paper, 'buffer', -1)
      return paper
    elseif len(folder) > longest && strpart(path, 0, len(folder)) ==# folder
      let [found, longest] = [paper, len(folder)]
    endif
  endfor
  return found
endfunction

function! s:Watch() abort
  augroup bibtex_live
    autocmd!
    autocmd TextChanged,TextChangedI,BufWritePost,BufReadPost *.aux,*.bib,*.bst call s:Changed()
    if exists('##TextChangedP')
      autocmd TextChangedP *.aux,*.bib,*.bst call s:Changed()
    endif
    autocmd FocusGained * call s:Changed()
    autocmd BufReadPost,BufUnload *.aux,*.bib,*.bst call s:Forget(str2nr(expand('<abuf>')))
    autocmd BufReadPost *.aux,*.bib,*.bst call map(values(s:papers), 's:Mark(v:val)')
    autocmd BufEnter \[bibliography\ of\ *\] call s:Enter()
    autocmd CursorMoved,CursorMovedI,BufEnter *.aux,*.bib,*.bst,*.tex call s:Follow()
    autocmd VimLeavePre * call s:Leave()
  augroup END
  if !exists('s:clock')
    " Files that aren't edited here, as the .aux file that LaTeX writes.
    let s:clock = timer_start(s:Option('interval', 1000), {-> s:Tick()}, {'repeat': -1})
  endif
endfunction

function! s:Tick() abort
  if !exists('s:soon')
    for paper in values(s:papers)
      call s:Check(paper)
      call s:Pump(paper)
    endfor
  endif
endfunction

" The window of a paper is entered: commands are about this paper from now on.
function! s:Enter() abort
  for paper in values(s:papers)
    if bufnr('%') == get(paper, 'buffer', -1)
      let s:latest = paper
    endif
  endfor
endfunction

" The editor ends: so do the programs, and none is started again.
function! s:Leave() abort
  let papers = values(s:papers)
  let s:papers = {}
  call map(papers, 's:Drop(v:val)')
endfunction

" A text has changed. What is to be done waits until the editor has shown it.
function! s:Changed() abort
  for paper in values(s:papers)
    let paper.resting = 0
  endfor
  if !exists('s:soon')
    let s:soon = timer_start(1, {-> s:Catch()})
  endif
endfunction

function! s:Catch() abort
  unlet s:soon
  call map(values(s:papers), 's:Pump(v:val)')
  call s:Follow()
endfunction

" --- The program ---

function! s:Launch(paper) abort
  call extend(a:paper, {'sent': {}, 'numbers': {}, 'asked': '', 'input': '', 'wanted': -1, 'stale': '', 'said': '', 'began': reltime()})
  let words = [s:Option('program', 'bibtex'), '--resident'] + s:Option('arguments', []) + [a:paper.name]
  if has('nvim')
    let options = {'cwd': a:paper.folders[0],
          \ 'on_stdout': {job, lines, _ -> s:Receive(a:paper, job, join(lines, "\n"))},
          \ 'on_stderr': {_, lines, __ -> s:Complain(a:paper, lines[0])},
          \ 'on_exit': {job, _, __ -> s:Ended(a:paper, job)}}
    let a:paper.job = jobstart(words, options)
    let a:paper.channel = a:paper.job
    return
  endif
  let options = {'mode': 'raw', 'in_io': 'pipe', 'out_io': 'pipe', 'err_io': 'pipe', 'err_mode': 'nl',
        \ 'cwd': a:paper.folders[0], 'out_cb': function('s:Receive', [a:paper]),
        \ 'err_cb': {_, line -> s:Complain(a:paper, line)}, 'close_cb': function('s:Ended', [a:paper])}
  if has('patch-8.1.350')
    let options.noblock = 1
  endif
  let a:paper.job = job_start(words, options)
  let a:paper.channel = job_getchannel(a:paper.job)
endfunction

" Keeps the first line that the program says on standard error.
function! s:Complain(paper, line) abort
  let a:paper.said = a:paper.said ==# '' ? a:line : a:paper.said
endfunction

" Sends a text or a blob to the program.
function! s:Send(paper, bytes) abort
  try
    if has('nvim')
      call chansend(a:paper.channel, a:bytes)
    else
      call ch_sendraw(a:paper.channel, a:bytes)
    endif
  catch /^Vim\%((\a\+)\)\=:E\%(630\|631\|900\|906\)/
    " The channel is closed: s:Ended comes.
  endtry
endfunction

" Ends the program without a word; what it still says is for nobody.
function! s:Drop(paper) abort
  let a:paper.items = []
  call s:Mark(a:paper)
  if a:paper.job isnot v:null
    let job = a:paper.job
    let a:paper.job = v:null
    call s:Calm(a:paper)
    if has('nvim')
      call jobstop(job)
    else
      call job_stop(job, 'kill')
    endif
  endif
endfunction

" Starts the program anew, with all texts; not where it ended three times within ten seconds: then it waits for a change.
function! s:Again(paper, why) abort
  call s:Drop(a:paper)
  call filter(add(a:paper.ends, localtime()), 'v:val > localtime() - 10')
  let a:paper.resting = len(a:paper.ends) >= 3
  call s:Warn(a:why . (a:paper.resting ? '; it is started again at the next change' : '; it is started again'))
  call s:Pump(a:paper)
endfunction

function! s:Ended(paper, channel) abort
  if a:paper.job isnot v:null && a:paper.channel == a:channel
    let words = a:paper.said ==# '' ? '' : ' (' . a:paper.said . ')'
    if words =~# 'resident'
      let words .= ': this isn''t Dulshenko''s bibtex but TeX Live''s. Set g:bibtex_live_program'
    endif
    call s:Again(a:paper, 'the program has ended' . words)
  endif
endfunction

function! s:Late(paper, timer) abort
  call s:Again(a:paper, 'no answer for ' . s:Option('patience', 20) . ' seconds: the program is stopped')
endfunction

function! s:Calm(paper) abort
  call timer_stop(get(a:paper, 'patience', -1))
endfunction

" Sends a command, and the bytes that it brings.
function! s:Say(paper, asked, line, bytes) abort
  let a:paper.asked = a:asked
  call s:Calm(a:paper)
  let a:paper.patience = timer_start(s:Option('patience', 20) * 1000, function('s:Late', [a:paper]))
  if type(a:bytes) == type('')
    return s:Send(a:paper, a:line . "\n" . a:bytes)
  endif
  call s:Send(a:paper, a:line . "\n")
  call s:Send(a:paper, a:bytes)
endfunction

" Does the next thing that is to be done: an edit, else what the answers of the last edits made stale.
function! s:Pump(paper) abort
  if a:paper.job is v:null
    if a:paper.resting || !has_key(s:papers, a:paper.aux)
      return
    endif
    call s:Launch(a:paper)
  endif
  if a:paper.asked !=# '' || s:Edit(a:paper) || a:paper.stale ==# ''
    return
  endif
  call s:Say(a:paper, a:paper.stale, a:paper.stale, '')
endfunction

" Sends the first difference between the texts as they are and those that the program has, and says whether there is one.
" The .aux files come first and the style last, so that its functions are run once.
function! s:Edit(paper) abort
  for kind in ['\.aux$', '\.bib$', '\%(\.aux\|\.bib\)\@<!$']
    for name in filter(copy(a:paper.names), 'v:val =~# kind')
      let kept = s:Present(a:paper, name)
      let text = kept.text
      let known = has_key(a:paper.sent, name)
      let number = get(a:paper.numbers, name, -1)
      if text is v:null
        let line = known ? 'remove ' . name : ''
        let bytes = ''
        let a:paper.moved = 1
      elseif known && (number == kept.number || (number != kept.base && s:Same(text, a:paper.sent[name])))
        let a:paper.numbers[name] = kept.number
        let line = ''
        if has_key(a:paper.refusals, name)
          call remove(a:paper.refusals, name)
          let [a:paper.stale, a:paper.moved] = ['blg', 1]
        endif
      elseif has_key(a:paper.refusals, name) && s:Same(text, a:paper.refusals[name].text)
        let line = ''
      elseif len(text) > s:most_bytes || !s:IsName(name)
        let line = ''
        let a:paper.refusals[name] = {'text': text, 'code': s:IsName(name) ? 4 : 1}
        let [a:paper.stale, a:paper.moved] = ['blg', 1]
      elseif known && type(text) == type('') && type(a:paper.sent[name]) == type('')
        let change = number == kept.base ? kept.change : s:Change(a:paper.sent[name], text) + [1]
        let [start, end, bytes] = change[:2]
        let a:paper.moved = a:paper.moved || change[3]
        let line = printf('splice %s %d %d %d', name, start, end, len(bytes))
      else
        let bytes = text
        let line = printf('write %s %d', name, len(bytes))
        let a:paper.moved = 1
      endif
      if line !=# ''
        let a:paper.edited = {'name': name, 'text': text, 'number': kept.number}
        call s:Say(a:paper, 'edit', line, bytes)
        return 1
      endif
    endfor
  endfor
  return 0
endfunction

function! s:IsName(name) abort
  return a:name =~# '^[A-Za-z0-9._+/-]\{1,64}$'
endfunction

function! s:Same(a, b) abort
  return type(a:a) == type(a:b) && a:a ==# a:b
endfunction

" The smallest change that makes the new text of the old one: the bytes from start up to end become `bytes`.
function! s:Change(old, new) abort
  let most = min([len(a:old), len(a:new)])
  let [start, high] = [0, most]
  while start < high
    let half = (start + high + 1) / 2
    if strpart(a:old, start, half - start) ==# strpart(a:new, start, half - start)
      let start = half
    else
      let high = half - 1
    endif
  endwhile
  let [same, high] = [0, most - start]
  while same < high
    let half = (same + high + 1) / 2
    if strpart(a:old, len(a:old) - half, half - same) ==# strpart(a:new, len(a:new) - half, half - same)
      let same = half
    else
      let high = half - 1
    endif
  endwhile
  return [start, len(a:old) - same, strpart(a:new, start, len(a:new) - same - start)]
endfunction

function! s:Receive(paper, channel, bytes) abort
  if a:paper.job is v:null || a:paper.channel != a:channel
    return
  endif
  let a:paper.input .= a:bytes
  while a:paper.job isnot v:null
    if a:paper.wanted < 0
      let end = stridx(a:paper.input, "\n")
      if end < 0
        return
      endif
      let line = strpart(a:paper.input, 0, end)
      let a:paper.input = strpart(a:paper.input, end + 1)
      call s:Answered(a:paper, line)
    elseif len(a:paper.input) >= a:paper.wanted
      let bytes = strpart(a:paper.input, 0, a:paper.wanted)
      let a:paper.input = strpart(a:paper.input, a:paper.wanted)
      let a:paper.wanted = -1
      call s:Taken(a:paper, bytes)
    else
      return
    endif
  endwhile
endfunction

" The first line of an answer.
function! s:Answered(paper, line) abort
  let asked = a:paper.asked
  if asked ==# 'edit' && a:line =~# '^ok [0-3] \d\+ \d\+ \d\+$'
    let edited = a:paper.edited
    if edited.text is v:null
      call remove(a:paper.sent, edited.name)
    else
      let a:paper.sent[edited.name] = edited.text
      let a:paper.numbers[edited.name] = edited.number
    endif
    let a:paper.stale = 'blg'
    call s:Next(a:paper)
  elseif asked ==# 'edit' && a:line =~# '^refused [1-6]$'
    let edited = a:paper.edited
    let code = str2nr(strpart(a:line, 8))
    if (code == 2 || code == 3) && has_key(a:paper.sent, edited.name)
      call remove(a:paper.sent, edited.name)
    else
      let a:paper.refusals[edited.name] = {'text': edited.text, 'code': code}
    endif
    let [a:paper.stale, a:paper.moved] = ['blg', 1]
    call s:Next(a:paper)
  elseif (asked ==# 'bbl' || asked ==# 'blg') && a:line =~# '^' . asked . ' \d\{1,15}$'
    let a:paper.wanted = str2nr(strpart(a:line, 4))
  else
    call s:Again(a:paper, 'an answer that isn''t one (' . strpart(a:line, 0, 60) . '): the program is stopped')
  endif
endfunction

" The bytes of an answer. If there is no bibliography, as while a style is being written, the last one stays.
function! s:Taken(paper, bytes) abort
  if a:paper.asked ==# 'blg'
    if a:paper.blg !=# a:bytes
      let a:paper.blg = a:bytes
      let a:paper.moved = 1
      call s:Read(a:paper)
    endif
    let a:paper.stale = 'bbl'
  else
    let a:paper.old = a:bytes ==# '' && a:paper.bbl !=# ''
    let a:paper.bbl = a:paper.old ? a:paper.bbl : a:bytes
    let a:paper.stale = ''
    call s:Show(a:paper)
    if a:paper.moved
      call timer_stop(get(a:paper, 'listing', -1))
      let a:paper.listing = timer_start(s:Option('rest', 200), {-> s:List(a:paper)})
    endif
  endif
  call s:Next(a:paper)
endfunction

function! s:Next(paper) abort
  call s:Calm(a:paper)
  let a:paper.asked = ''
  call s:Pump(a:paper)
endfunction

" --- Texts ---

" The text of a name as it is now, with its number: of the buffer where it has changes that aren't saved, else of the
" file. `change` makes it of the text of the number `base`.
function! s:Present(paper, name) abort
  let path = s:Place(a:paper, a:name)
  if path ==# ''
    return {'text': v:null, 'number': -1, 'base': -2}
  endif
  let number = s:Buffer(path)
  let edited = number > 0 && (getbufvar(number, '&modified') || !filereadable(path))
  let form = number > 0 ? join([number, getbufvar(number, '&fileformat'), getbufvar(number, '&fileencoding')]) : ''
  let mark = edited ? 'buffer ' . getbufvar(number, 'changedtick') : 'file ' . getftime(path) . ' ' . getfsize(path)
  let kept = get(a:paper.texts, a:name, {})
  if get(kept, 'mark', '') ==# mark && kept.path ==# path
    return kept
  endif
  let change = edited && get(kept, 'form', '') ==# form ? s:Recorded(number, kept.text) : []
  let s:count += 1
  let new = {'mark': mark, 'form': form, 'path': path, 'number': s:count, 'base': -2, 'time': reltime()}
  if empty(change)
    let new.text = edited ? s:BufferText(number) : s:FileText(path)
  else
    let [new.base, new.change] = [kept.number, change]
    let new.text = strpart(kept.text, 0, change[0]) . change[2] . strpart(kept.text, change[1])
  endif
  " The buffer's changes are those of its file's text only if the two are the same.
  if edited || (number > 0 && s:Same(new.text, s:BufferText(number)))
    call s:Record(number)
  else
    let new.form = 'none'
  endif
  let a:paper.texts[a:name] = new
  return new
endfunction

" --- Records ---

" Begins to record what changes in a buffer. The first `front` lines and the last `back` lines are those of its text.
function! s:Record(number) abort
  let record = get(s:records, a:number, {})
  if empty(record)
    if has('nvim')
      call luaeval('vim.api.nvim_buf_attach(_A, false, {on_lines = function(_, number, _, first, last, new) '
            \ . 'vim.fn["bibtex_live#Hear"](number, first + 1, last + 1, new - last) end, '
            \ . 'on_reload = function(_, number) vim.fn["bibtex_live#Lose"](number) end})', a:number)
    elseif exists('*listener_add')
      let record.listener = listener_add(function('s:Listen'), a:number)
    else
      return
    endif
    let s:records[a:number] = record
  endif
  let lines = s:LineCount(a:number)
  call extend(record, {'lines': lines, 'front': lines, 'back': lines, 'lost': 0})
endfunction

function! s:Listen(number, start, end, added, changes) abort
  for change in a:changes
    call bibtex_live#Hear(a:number, change.lnum, change.end, change.added)
  endfor
endfunction

" The lines from `start` up to before `end` have changed, and so many were added.
function! bibtex_live#Hear(number, start, end, added) abort
  let record = get(s:records, a:number, {})
  if !empty(record)
    let record.front = min([record.front, a:start - 1])
    let record.back = min([record.back, record.lines - (a:end - 1)])
    let record.lines += a:added
  endif
endfunction

" What changed in a buffer is unknown.
function! bibtex_live#Lose(number) abort
  if has_key(s:records, a:number)
    let s:records[a:number].lost = 1
  endif
endfunction

" A buffer was read again, or its text is gone.
function! s:Forget(number) abort
  let record = get(s:records, a:number, {})
  if !empty(record)
    if has_key(record, 'listener')
      call listener_remove(record.listener)
      call remove(s:records, a:number)
    else
      let record.lost = 1
    endif
  endif
endfunction

function! s:LineCount(number) abort
  return a:number == bufnr('%') ? line('$') : getbufinfo(a:number)[0].linecount
endfunction

" The change that makes the present text of a buffer of the one when its record began: the bytes from start up to end become
" `bytes`, and whether lines move. Empty if it isn't known: line2byte() counts only in the present buffer, and in the
" editor's own encoding.
function! s:Recorded(number, old) abort
  let record = get(s:records, a:number, {})
  if !has('nvim') && !empty(record)
    call listener_flush(a:number)
  endif
  if empty(record) || record.lost || a:number != bufnr('%') || record.lines != line('$') || type(a:old) != type('')
        \ || &bomb || (&fileencoding !=# '' && &fileencoding !=? &encoding)
    return []
  endif
  let last = record.lines - record.back
  let lines = getline(record.front + 1, last)
  let [start, end, all] = map([record.front, last, record.lines], 'line2byte(v:val + 1) - 1')
  let old_end = len(a:old) - (all - end)
  let ending = get({'dos': "\r\n", 'mac': "\r"}, &fileformat, "\n")
  let closed = record.back > 0 || &eol || (&fixeol && !&binary)
  let bytes = empty(lines) ? '' : join(lines, ending) . (closed ? ending : '')
  if start < 0 || old_end < start || len(bytes) != end - start || match(lines, "\n") >= 0
    return []
  endif
  let was = strpart(a:old, start, old_end - start)
  let [from, to, new] = s:Change(was, bytes)
  return [start + from, start + to, new, stridx(strpart(was, from, to - from) . new, "\n") >= 0]
endfunction

" Compares the text of each buffer, once it rests, with the one that was made of its changes.
function! s:Check(paper) abort
  for kept in values(a:paper.texts)
    if kept.base >= 0 && !has_key(kept, 'checked') && reltimefloat(reltime(kept.time)) > 2
      let number = str2nr(kept.form)
      if kept.mark ==# 'buffer ' . getbufvar(number, 'changedtick')
        let kept.checked = 1
        if !s:Same(kept.text, s:BufferText(number))
          let kept.mark = ''
          call bibtex_live#Lose(number)
        endif
      endif
    endif
  endfor
endfunction

" --- Files and buffers ---

" Where the file of a name is, or '': in the paper's folder, in that where the command was given, in those of
" g:bibtex_live_folders, or where kpsewhich finds it.
function! s:Place(paper, name) abort
  let place = get(a:paper.places, a:name, '')
  if place !=# '' && s:IsThere(place)
    return place
  endif
  for folder in a:paper.folders + s:Option('folders', [])
    let place = resolve(fnamemodify(expand(folder) . '/' . a:name, ':p'))
    if s:IsThere(place)
      let a:paper.places[a:name] = place
      return place
    endif
  endfor
  if a:name =~# '\.\%(bib\|bst\)$' && a:name !~# '^-' && !has_key(a:paper.unknown, a:name) && executable('kpsewhich')
    let place = get(split(system('cd ' . shellescape(a:paper.folders[0]) . ' && kpsewhich ' . a:name), "\n"), 0, '')
    if v:shell_error == 0 && filereadable(place)
      let a:paper.places[a:name] = place
      return place
    endif
    let a:paper.unknown[a:name] = 1
  endif
  return ''
endfunction

function! s:IsThere(path) abort
  return filereadable(a:path) || s:Buffer(a:path) > 0
endfunction

" The loaded buffer of a path, or 0.
function! s:Buffer(path) abort
  for number in range(1, bufnr('$'))
    if bufloaded(number) && bufname(number) !=# '' && getbufvar(number, '&buftype') ==# ''
          \ && s:Resolved(fnamemodify(bufname(number), ':p')) ==# a:path
      return number
    endif
  endfor
  return 0
endfunction

function! s:Resolved(path) abort
  if !has_key(s:resolved, a:path)
    let s:resolved[a:path] = resolve(a:path)
  endif
  return s:resolved[a:path]
endfunction

" The bytes that `:write` would write.
function! s:BufferText(number) abort
  let ending = get({'dos': "\r\n", 'mac': "\r"}, getbufvar(a:number, '&fileformat'), "\n")
  let lines = getbufline(a:number, 1, '$')
  let closed = getbufvar(a:number, '&eol') || (getbufvar(a:number, '&fixeol', 1) && !getbufvar(a:number, '&binary'))
  if match(lines, "\n") >= 0
    return s:WithNul(map(lines, 'v:val . strpart(ending, 0, len(ending) - 1)') + (closed ? [''] : []))
  endif
  let text = join(lines, ending) . (closed ? ending : '')
  if getbufvar(a:number, '&bomb')
    let text = "\xef\xbb\xbf" . text
  endif
  let encoding = getbufvar(a:number, '&fileencoding')
  return encoding ==# '' || encoding ==? &encoding ? text : iconv(text, &encoding, encoding)
endfunction

function! s:FileText(path) abort
  if getfsize(a:path) > s:most_bytes
    return repeat(' ', s:most_bytes + 1)
  endif
  try
    let lines = readfile(a:path, 'b')
  catch /^Vim\%((\a\+)\)\=:E\%(484\|485\)/
    return v:null
  endtry
  return match(lines, "\n") < 0 ? join(lines, "\n") : s:WithNul(lines)
endfunction

" Lines with NUL bytes, which Vim keeps as line feeds, as a blob.
function! s:WithNul(lines) abort
  let file = tempname()
  call writefile(a:lines, file, 'b')
  let bytes = exists('v:t_blob') ? readfile(file, 'B') : join(a:lines, "\n")
  call delete(file)
  return bytes
endfunction

" --- The log ---

" Takes the messages out of the log, and the files that the run wants.
function! s:Read(paper) abort
  let lines = split(a:paper.blg, "\n", 1)
  let place = '--line \(\d\+\) of file \([A-Za-z0-9._+/-]\{1,64}\)$'
  let messages = []
  let [at, counts] = [0, 0]
  while at < len(lines)
    let [line, next] = [lines[at], get(lines, at + 1, '')]
    let at += 1
    if line =~# '^Warning--'
      let message = {'type': 'W', 'text': strpart(line, 9), 'place': matchlist(next, '^' . place)}
      let at += !empty(message.place) || (line =~# "^Warning--you've nested" && next =~# '^refers to entry "')
    elseif next =~# '^while executing-' . place
      let message = {'type': 'E', 'text': line, 'place': matchlist(next, place)}
      let at += 1
    elseif line =~# '-' . place
      let message = {'type': 'E', 'text': substitute(line, '-' . place, '', ''), 'place': matchlist(line, place)}
      let at += next =~# '^I''m skipping whatever remains of this'
    elseif line =~# '---while reading file '
      let message = {'type': 'E', 'text': line, 'place': ['', '0', matchstr(line, '---while reading file \zs.*')]}
    elseif line =~# '^A bad cross reference---entry "' && next =~# '^refers to entry "'
      let message = {'type': 'E', 'text': line . ' ' . next, 'place': []}
      let at += 1
    elseif line =~# '^I couldn''t open auxiliary file '
      let message = {'type': 'E', 'text': line, 'place': []}
    elseif line =~# '^The built-in function-call counts, '
      let counts = 37
      continue
    elseif counts > 0 && line =~# '^\S\+ -- \d\+$'
      let counts -= 1
      continue
    elseif line =~# '^\%(The top-level auxiliary file: \|A level-\d\+ auxiliary file: \|The style file: \|Database file #\)'
          \ || line =~# '^(\%(There was \|There were \|That was a fatal\).*)$' || line ==# ''
      continue
    else
      let message = {'type': 'I', 'text': line, 'place': []}
    endif
    if message.text =~# '^I couldn''t open \%(auxiliary\|database\|style\) file '
      let name = matchstr(message.text, 'file \zs.*')
      if index(a:paper.names, name) < 0
        call add(a:paper.names, name)
      endif
    endif
    call add(messages, message)
  endwhile
  let a:paper.messages = s:Folded(messages)
endfunction

" Of the warnings about citations without an entry only the first, with the number of the others, while a database is missing.
function! s:Folded(messages) abort
  let lost = filter(copy(a:messages), 'v:val.text =~# "^I didn''t find a database entry for "')
  if len(lost) < 2 || empty(filter(copy(a:messages), 'v:val.text =~# "^I couldn''t open database file "'))
    return a:messages
  endif
  let lost[0].more = printf(' (nor for %d others, while a database is missing)', len(lost) - 1)
  return filter(a:messages, 'v:val is lost[0] || v:val.text !~# "^I didn''t find a database entry for "')
endfunction

" Where a message without a line belongs: to the entry, or the \citation, of the key that it ends with.
function! s:Where(paper, words) abort
  let key = matchstr(a:words, '--entry "\zs[^" ]\+\ze"')
  if key ==# ''
    let key = substitute(matchstr(a:words, '\%("[^" ]\+"\|\S\+\)$'), '"', '', 'g')
  endif
  for [ending, before, behind] in [['\.bib$', '@\_s*[^ \t\n@{(]\+\_s*[{(]\_s*$', '^\_s*[,})]'],
        \ ['\.aux$', '\\citation{\%([^}]*,\)\=$', '^[,}]']]
    for name in filter(keys(a:paper.sent), 'v:val =~# ending')
      let text = a:paper.sent[name]
      let at = key ==# '' || type(text) != type('') ? -1 : s:Find(text, key, before, behind)
      if at >= 0
        return ['', count(strpart(text, 0, at), "\n") + 1, name]
      endif
    endfor
  endfor
  return []
endfunction

" Where a key stands in a text, in any case, before and behind which the text matches these patterns, or -1.
function! s:Find(text, key, before, behind) abort
  for lower in [0, 1]
    let [text, key] = lower ? [tolower(a:text), tolower(a:key)] : [a:text, a:key]
    let at = stridx(text, key)
    while at >= 0
      let first = max([0, at - 200])
      if strpart(text, first, at - first) =~# a:before && strpart(text, at + len(key), 80) =~# a:behind
        return at
      endif
      let at = stridx(text, key, at + 1)
    endwhile
  endfor
  return -1
endfunction

" Puts the messages into a quickfix list of this paper.
function! s:List(paper) abort
  let a:paper.moved = 0
  let items = []
  let left = 25     " messages without a line that are looked up
  for [name, refusal] in items(a:paper.refusals)
    call add(items, {'filename': get(a:paper.places, name, name), 'lnum': 1, 'type': 'E',
          \ 'text': name . ' isn''t sent: ' . s:reasons[refusal.code]})
  endfor
  for message in a:paper.messages
    let place = message.place
    if empty(place) && message.type !=# 'I' && left > 0
      let place = s:Where(a:paper, message.text)
      let left -= 1
    endif
    let item = {'text': message.text . get(message, 'more', ''), 'type': message.type}
    if !empty(place)
      let item.filename = get(a:paper.places, place[2], a:paper.folders[0] . '/' . place[2])
      let item.lnum = max([1, str2nr(place[1])])
    endif
    call add(items, item)
  endfor
  if items ==# a:paper.items
    return
  endif
  let a:paper.items = items
  call s:Mark(a:paper)
  if !s:Option('quickfix', 1)
    return
  endif
  let title = 'bibtex-live: ' . a:paper.title
  if a:paper.list > 0 && getqflist({'id': a:paper.list, 'title': 1}).title ==# title
    call setqflist([], 'r', {'id': a:paper.list, 'items': items, 'title': title})
  else
    call setqflist([], ' ', {'items': items, 'title': title})
    let a:paper.list = getqflist({'nr': '$', 'id': 0}).id
  endif
endfunction

" Puts a sign at the line of each message, in the buffers that are loaded.
function! s:Mark(paper) abort
  if !exists('*sign_place') || !s:Option('signs', 1)
    return
  endif
  call sign_define('BibtexLiveE', {'text': 'E>', 'texthl': 'ErrorMsg'})
  call sign_define('BibtexLiveW', {'text': 'W>', 'texthl': 'WarningMsg'})
  let group = 'bibtex_live_' . a:paper.buffer
  call sign_unplace(group)
  for item in filter(copy(a:paper.items), 'has_key(v:val, "lnum") && v:val.type !=# "I"')
    let number = s:Buffer(s:Resolved(item.filename))
    if number > 0
      call sign_place(0, group, 'BibtexLive' . item.type, number, {'lnum': item.lnum, 'priority': item.type ==# 'E' ? 12 : 11})
    endif
  endfor
endfunction

" --- The window ---

function! s:OpenWindow(paper) abort
  if has_key(a:paper, 'buffer') && bufexists(a:paper.buffer)
    if bufwinnr(a:paper.buffer) < 0
      execute 'silent noautocmd' s:Option('window', 'botright 15') . 'split'
      execute 'silent noautocmd buffer' a:paper.buffer
      noautocmd wincmd p
    endif
    return
  endif
  execute 'silent noautocmd' s:Option('window', 'botright 15') . 'new'
  let a:paper.buffer = bufnr('%')
  setlocal buftype=nofile bufhidden=hide noswapfile nobuflisted nonumber wrap cursorline undolevels=-1 syntax=tex
  execute 'silent! file' fnameescape('[bibliography of ' . a:paper.title . ']')
  let &l:statusline = '%f  %{bibtex_live#StatusLine(' . a:paper.buffer . ')}'
  setlocal nomodifiable
  noautocmd wincmd p
endfunction

function! bibtex_live#StatusLine(buffer) abort
  for paper in values(s:papers)
    if get(paper, 'buffer', -1) == a:buffer && paper.job isnot v:null && has_key(paper, 'old')
      let errors = len(filter(copy(paper.messages), 'v:val.type ==# "E"'))
      let warnings = len(filter(copy(paper.messages), 'v:val.type ==# "W"'))
      return printf('%d error%s, %d warning%s', errors, errors == 1 ? '' : 's', warnings, warnings == 1 ? '' : 's')
            \ . (paper.old ? '  (the last good bibliography)' : '')
    elseif get(paper, 'buffer', -1) == a:buffer && paper.job isnot v:null
      return 'starting'
    endif
  endfor
  return 'stopped'
endfunction

" The key of the entry under the cursor.
function! s:Key(paper) abort
  if expand('%:e') ==# 'bib'
    let at = line('.')
    while at > 0
      let found = matchlist(getline(at), '^\s*@\s*\([^ \t@{(]\+\)\s*[{(]\s*\([^ \t,}]*\)')
      if !empty(found)
        return found[1] =~? '^\%(string\|preamble\|comment\)$' ? ''
              \ : found[2] !=# '' ? found[2] : matchstr(getline(at + 1), '^\s*\zs[^ \t,}]*')
      endif
      let at -= 1
    endwhile
    return ''
  endif
  let [line, at] = [getline('.'), col('.') - 1]
  return matchstr(strpart(line, 0, at), '[^ \t,{}\\]*$') . matchstr(strpart(line, at), '^[^ \t,{}\\]*')
endfunction

" The bytes of the bibliography at which the \bibitem of a key begins and ends, or -1 twice.
function! s:Item(paper, key) abort
  let bbl = a:paper.bbl
  if a:key ==# ''
    return [-1, -1]
  endif
  let [sought, key] = stridx(bbl, '{' . a:key . '}') >= 0 ? [bbl, '{' . a:key . '}'] : [tolower(bbl), '{' . tolower(a:key) . '}']
  let at = stridx(sought, key)
  while at >= 0
    let begin = strridx(bbl, '\bibitem', at)
    let between = begin < 0 ? 'none' : substitute(strpart(bbl, begin + 8, at - begin - 8), '%\n\|\n\|\s', '', 'g')
    while between =~# '{[^{}]*}'
      let between = substitute(between, '{[^{}]*}', '', 'g')
    endwhile
    if between =~# '^\%(\[[^]{}]*\]\)\=$'
      let end = match(bbl, '\n\s*\\\%(bibitem\|end{thebibliography}\)', begin)
      return [begin, end < 0 ? len(bbl) : end]
    endif
    let at = stridx(sought, key, at + 1)
  endwhile
  return [-1, -1]
endfunction

" Bytes of the program as lines of this Vim, in the encoding of the first database that is edited here.
function! s:Lines(paper, bytes) abort
  let text = a:bytes
  for name in filter(copy(a:paper.names), 'v:val =~# "\\.bib$"')
    let encoding = getbufvar(s:Buffer(get(a:paper.places, name, '')), '&fileencoding')
    if encoding !=# ''
      let text = encoding ==? &encoding ? text : iconv(text, encoding, &encoding)
      break
    endif
  endfor
  let lines = split(text, "\n", 1)
  while len(lines) > 1 && lines[-1] ==# ''
    call remove(lines, -1)
  endwhile
  return lines
endfunction

function! s:Show(paper) abort
  if !bufexists(get(a:paper, 'buffer', -1))
    return
  endif
  let [begin, end] = s:Item(a:paper, a:paper.key)
  if a:paper.view ==# 'log'
    let lines = s:Lines(a:paper, a:paper.blg)
  elseif a:paper.bbl ==# ''
    let lines = ['(The bibliography is empty: the quickfix list says why.)']
  elseif a:paper.view ==# 'all'
    let lines = s:Lines(a:paper, a:paper.bbl)
  elseif begin < 0
    let lines = ['(' . (a:paper.key ==# '' ? 'No entry is under the cursor.' : a:paper.key . ' isn''t in the bibliography.') . ')']
  else
    let lines = s:Lines(a:paper, strpart(a:paper.bbl, begin, end - begin))
  endif
  call s:Fill(a:paper.buffer, lines)
  if exists('*win_execute') && (a:paper.view ==# 'entry' || (a:paper.view ==# 'all' && begin >= 0))
    let first = a:paper.view ==# 'entry' ? 1 : len(split(strpart(a:paper.bbl, 0, begin), "\n", 1))
    for window in win_findbuf(a:paper.buffer)
      call win_execute(window, 'call cursor(' . first . ', 1) | normal! zt')
    endfor
  endif
endfunction

" Fills a window: only the lines that differ are set.
function! s:Fill(buffer, lines) abort
  let present = getbufline(a:buffer, 1, '$')
  let front = s:Common(present, a:lines)
  if front == len(present) && front == len(a:lines)
    return
  endif
  let back = s:Common(reverse(present[front :]), reverse(a:lines[front :]))
  let [olds, news] = [len(present) - front - back, a:lines[front : len(a:lines) - back - 1]]
  call setbufvar(a:buffer, '&modifiable', 1)
  let same = min([olds, len(news)])
  if same > 0
    call setbufline(a:buffer, front + 1, news[: same - 1])
  endif
  if len(news) > same
    call appendbufline(a:buffer, front + same, news[same :])
  elseif olds > same
    silent call deletebufline(a:buffer, front + same + 1, front + olds)
  endif
  call setbufvar(a:buffer, '&modifiable', 0)
endfunction

" How many lines two lists have in common at their beginnings.
function! s:Common(old, new) abort
  let [same, high] = [0, min([len(a:old), len(a:new)])]
  while same < high
    let half = (same + high + 1) / 2
    if a:old[same : half - 1] ==# a:new[same : half - 1]
      let same = half
    else
      let high = half - 1
    endif
  endwhile
  return same
endfunction

" Shows the entry under the cursor, where it is another one.
function! s:Follow() abort
  let paper = s:Here()
  if empty(paper) || bufnr('%') == get(paper, 'buffer', -1)
    return
  endif
  let key = s:Key(paper)
  if key !=# paper.key && (expand('%:e') ==# 'bib' || s:Item(paper, key)[0] >= 0)
    let paper.key = key
    call s:Show(paper)
  endif
endfunction

let &cpo = s:cpo_save
unlet s:cpo_save
