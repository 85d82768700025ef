-- The session of tests/editors/lsp in Neovim that goes from paper to paper.
vim.g.bibtex_lsp_program = vim.env.PROGRAM
vim.cmd('filetype plugin on')
dofile(vim.env.EDITORS .. '/neovim/bibtex-lsp.lua')
local out = assert(io.open('said', 'w'))

local function check(step, holds, found)
  out:write(holds and 'passed: ' or 'FAILED: ', step, holds and '' or ': ' .. vim.inspect(found), '\n')
  out:flush()
  if not holds then vim.cmd('cquit!') end
end

local function client()
  for _, one in pairs(vim.lsp.buf_get_clients(0)) do return one end
end

local function job()
  return client() and client().config.init_options.job
end

local function hover()
  for _, answer in pairs(vim.lsp.buf_request_sync(0, 'textDocument/hover', vim.lsp.util.make_position_params(), 10000) or {}) do
    return answer.result and answer.result.contents.value or ''
  end
end

-- Opens a file, and goes to a word in it.
local function at(file, word)
  vim.cmd('edit ' .. file)
  check(file .. ' has a server', vim.wait(10000, function() return client() and client().initialized end))
  vim.fn.cursor(1, 1)
  vim.fn.search(word)
end

-- Two files that are opened before the server has started, as by `nvim -p`.
vim.cmd('edit x.bib')
local own = vim.b.bibtex_lsp
vim.cmd('edit a.tex')
check('one server for files that are opened together', own and vim.b.bibtex_lsp == own, { own, vim.b.bibtex_lsp })
vim.fn.mkdir('fresh/sub', 'p')
vim.fn.writefile({ '@misc{one,', '  title = {First},', '}' }, 'fresh/sub/f.bib')
at('fresh/sub/f.bib', 'one')
check('no paper yet', job() == nil, job())
vim.fn.writefile({ '\\relax', '\\citation{one}', '\\bibstyle{plain}', '\\bibdata{f}' }, 'fresh/sub/f.aux')
vim.cmd('doautocmd CursorHold')
check('the paper once LaTeX has run', vim.wait(10000, function() return job() == 'f' and client().initialized and hover():find('First', 1, true) end), { job(), hover() })
-- a.aux uses x.bib, and b.aux, which is newer, y.bib.
at('x.bib', 'one')
check('the paper that names a database', job() == 'a' and hover():find('First', 1, true), { job(), hover() })
at('z.bib', 'three')
check('no .aux file names it: the paper of the file before', job() == 'a', job())
at('y.bib', 'two')
check('another paper in the folder', job() == 'b' and hover():find('Second', 1, true), { job(), hover() })
at('a.tex', 'one')
check('the paper of its own name', job() == 'a', job())
at('y.bib', 'two')
vim.cmd('BibtexRoot a.aux')
check('the paper that was chosen', vim.wait(10000, function() return job() == 'a' and client().initialized end), job())
at('z.bib', 'three')
check('the paper that was chosen, for the folder', job() == 'a', job())
vim.ui.select = function(list, _, done) done(vim.tbl_filter(function(path) return vim.endswith(path, '/b.aux') end, list)[1]) end
vim.cmd('BibtexRoot')
check('the paper that was chosen from a list', vim.wait(10000, function() return job() == 'b' and client().initialized end), job())
-- The database is in lib/, which is in BIBINPUTS.
at('sub/c.tex', 'far')
check('a root of another folder', job() == 'c' and client().config.root_dir == vim.fn.getcwd(), { job(), client().config.root_dir })
check('a relative folder of BIBINPUTS', hover():find('Far away', 1, true), hover())
local before = client().id
vim.lsp.buf.definition()
check('the definition opens its file', vim.wait(10000, function() return vim.fn.expand('%:t') == 'far.bib' end), vim.fn.expand('%'))
check('that file has the same server', client() and client().id == before, client())
check('its hover', vim.wait(10000, function() return hover():find('Far away', 1, true) end), hover())
vim.cmd('BibtexBibliography')
vim.cmd('wincmd p')
check('the bibliography', vim.wait(10000, function() return vim.fn.search('Far') > 0 end), vim.fn.getline(1, '$'))
vim.api.nvim_feedkeys('gy', 'xt', false)
check('the style opens', vim.wait(10000, function() return vim.fn.expand('%:t') == 'plain.bst' end), vim.fn.expand('%'))
check('the style has the same server', client() and client().id == before, client())
-- sub/d.aux has a database by a path with dots.
at('sub/d.tex', 'four')
vim.lsp.buf.definition()
check('a path with dots', vim.wait(10000, function() return vim.api.nvim_buf_get_name(0) == vim.fn.getcwd() .. '/more/four.bib' end), vim.fn.expand('%'))
vim.fn.setline(2, '  title = {Very fourth},')
at('sub/d.tex', 'four')
check('a change in that file', vim.wait(5000, function() return hover():find('Very fourth', 1, true) end), hover())
-- LaTeX writes the .aux file.
at('sub/c.tex', 'near')
check('a key that the .aux file has not', not hover():find('Close by', 1, true), hover())
vim.fn.writefile({ '\\relax', '\\citation{far}', '\\citation{near}', '\\bibstyle{plain}', '\\bibdata{far}' }, 'c.aux')
check('a change on disk', vim.wait(10000, function() return hover():find('Close by', 1, true) end), hover())
-- Keys and lenses.
check('K is for a hover', vim.fn.maparg('K', 'n') ~= '')
local function completed(text)
  vim.fn.setline(2, text)
  vim.fn.cursor(2, #text)
  vim.api.nvim_feedkeys(vim.api.nvim_replace_termcodes('A<C-X><C-O><Esc>', true, true, true), 'xt', false)
  return vim.fn.getline(2)
end
check('completion behind a colon', completed('\\cite{a, knuth:t') == '\\cite{a, knuth:tex', vim.fn.getline(2))
check('completion by an author', completed('\\cite{Leslie') == '\\cite{near', vim.fn.getline(2))
check('completion by words', completed('\\cite{tex knu') == '\\cite{knuth:tex', vim.fn.getline(2))
at('y.bib', 'two')
check('lenses without a command', vim.wait(20000, function()
  vim.cmd('doautocmd CursorHold')
  return #vim.lsp.codelens.get(0) > 0
end))
local function named(name) return vim.tbl_filter(function(item) return item.word == name end, _G.bibtex_lsp_complete(0, name))[1] end
vim.fn.append(1, '  howp')
vim.fn.cursor(2, 6)
check('completion of a field', _G.bibtex_lsp_complete(1, '') == 2 and named('howpublished'), _G.bibtex_lsp_complete(0, ''))
vim.cmd('silent undo')
vim.fn.append(1, '  ')
vim.fn.cursor(2, 3)
_G.bibtex_lsp_complete(1, '')
local offered = vim.tbl_map(function(item) return item.word end, _G.bibtex_lsp_complete(0, ''))
check('missing fields come first', offered[1] ~= 'title' and offered[#offered] == 'title', offered)
check('names that begin so come first', (_G.bibtex_lsp_complete(0, 'p')[1] or {}).word == 'pages', _G.bibtex_lsp_complete(0, 'p'))
vim.cmd('silent undo')
-- Links and folds.
at('links.tex', 'sub/d')
vim.api.nvim_feedkeys('gf', 'xt', false)
check('gf opens the file of a link', vim.fn.expand('%:t') == 'd.tex', vim.fn.expand('%'))
vim.fn.writefile({ '% !TEX root = ../c.tex', '\\input{sub/d}' }, 'sub/e.tex')
at('sub/e.tex', 'sub/d')
vim.api.nvim_feedkeys('gf', 'xt', false)
check('in a chapter, too', vim.api.nvim_buf_get_name(0) == vim.fn.getcwd() .. '/sub/d.tex', vim.api.nvim_buf_get_name(0))
at('x.bib', 'one')
vim.cmd('BibtexFold')
check('an entry is folded', vim.fn.foldclosedend(1) == 3, vim.fn.foldclosedend(1))
vim.cmd('normal! zE')
-- A rename changes closed .tex files, too, and saves the .aux file.
vim.cmd('silent! bwipeout! a.tex')
vim.cmd('BibtexRoot a.aux')
check('the paper of a', vim.wait(10000, function() return job() == 'a' and client().initialized and hover():find('First', 1, true) end), { job(), hover() })
vim.lsp.buf.rename('first:one')
check('a key with another name', vim.wait(10000, function() return hover():find('{first:one}', 1, true) end), hover())
check('the .aux file has it', vim.fn.readfile('a.aux')[2] == '\\citation{first:one}', vim.fn.readfile('a.aux'))
check('a closed .tex file has it', vim.fn.getbufline(vim.fn.bufnr('a.tex'), 1)[1] == '\\cite{first:one}', vim.fn.getbufline(vim.fn.bufnr('a.tex'), 1))
-- A server that dies.
local dead = client().id
vim.loop.kill(client().rpc.pid, 'sigkill')
check('a server that dies is started again', vim.wait(20000, function()
  return client() and client().id ~= dead and client().initialized and hover():find('First', 1, true)
end), hover())
vim.cmd('BibtexLog')
check('the log', vim.wait(10000, function()
  return vim.fn.getbufline(vim.fn.bufnr('$'), 1)[1]:find('The top-level auxiliary file: ', 1, true)
end), vim.fn.getbufline(vim.fn.bufnr('$'), 1))
out:write('done\n')
out:close()
vim.cmd('qall!')
