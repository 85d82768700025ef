-- The session of tests/editors/lsp in Neovim.
vim.g.bibtex_lsp_program = vim.env.PROGRAM
vim.cmd('filetype plugin on')
dofile(vim.env.EDITORS .. '/neovim/bibtex-lsp.lua')
local out = assert(io.open('said', 'w'))

local function check(step, holds, found)
  out:write(holds and 'passed: ' or 'FAILED: ', step, holds and '' or ': ' .. vim.inspect(found), '\n')
  out:flush()
  if not holds then vim.cmd('cquit!') end
end

local function ask(method, params)
  for _, answer in pairs(vim.lsp.buf_request_sync(0, method, params, 60000) or {}) do return answer.result end
end

local function hover()
  local answer = ask('textDocument/hover', vim.lsp.util.make_position_params())
  return answer and answer.contents.value or ''
end

local progress = {}
vim.api.nvim_create_autocmd('User', { pattern = 'LspProgressUpdate', callback = function()
  vim.list_extend(progress, vim.tbl_filter(function(m) return m.progress end, vim.lsp.util.get_progress_messages()))
end })
vim.cmd('edit library.bib')
check('the server starts', vim.wait(60000, function()
  local client = vim.lsp.get_active_clients()[1]
  return client and client.initialized
end))
check('progress of the first run', vim.wait(60000, function() return #progress > 1 and progress[#progress].done end)
  and progress[1].title == 'BibTeX' and not progress[1].done, progress)
vim.fn.search('Theory of Games')
check('hover', hover():find('Theory of Games', 1, true), hover())
vim.cmd('normal! ciwGreat')
check('hover after a change', hover():find('Great of Games', 1, true), hover())
vim.cmd('silent undo')
check('hover after undo', hover():find('Theory of Games', 1, true), hover())
local line = vim.fn.line('.')
vim.fn.setline(line, (vim.fn.getline(line):gsub(',$', '')))
check('a message at its line', vim.wait(60000, function()
  return #vim.tbl_filter(function(d) return d.lnum == line end, vim.diagnostic.get(0)) == 1
end), vim.diagnostic.get(0))
vim.cmd('silent undo')
-- Only the hint at the entry that nothing cites is left.
check('no message after undo', vim.wait(60000, function()
  local left = vim.diagnostic.get(0)
  return #left == 1 and left[1].lnum == 109 and left[1].severity == vim.diagnostic.severity.HINT
end), vim.diagnostic.get(0))
local symbols = ask('textDocument/documentSymbol', { textDocument = vim.lsp.util.make_text_document_params() })
check('symbols', #vim.tbl_filter(function(s) return s.name == 'neumann:games' end, symbols or {}) == 1, symbols)
vim.cmd('BibtexBibliography')
check('the bibliography', vim.wait(60000, function()
  return table.concat(vim.api.nvim_buf_get_lines(vim.fn.bufnr('$'), 0, -1, false), '\n'):find('bibitem[vNM44]{neumann:games}', 1, true)
end), vim.api.nvim_buf_get_lines(vim.fn.bufnr('$'), 0, -1, false))
local buffer = vim.fn.bufnr('$')
-- Presses keys in the bibliography, and tells the file and the line to which they lead.
local function pressed(keys, file)
  vim.cmd('wincmd p')
  vim.fn.cursor(1, 1)
  vim.fn.search('Theory of Games')
  vim.api.nvim_feedkeys(keys, 'xt', false)
  vim.wait(60000, function() return vim.endswith(vim.api.nvim_buf_get_name(0), file) end)
  return vim.fn.expand('%:t') .. ': ' .. vim.fn.getline('.')
end
local field = pressed('gd', '/library.bib')
check('the field of a byte', field:find('library.bib: ', 1, true) and field:find('Theory of Games', 1, true), field)
local word = pressed('gy', '/labels.bst')
check('the word that wrote it', word:find('labels.bst: ', 1, true), word)
vim.cmd('edit library.bib')
local lenses = ask('textDocument/codeLens', { textDocument = vim.lsp.util.make_text_document_params() })
check('code lenses', #lenses > 0 and lenses[1].command.title:find('^lines? %d'), lenses)
local function first() return vim.api.nvim_buf_get_lines(buffer, 0, 1, false)[1] end
vim.cmd('edit labels.bst')
vim.wait(60000, function() return #vim.lsp.buf_get_clients(0) > 0 end)
vim.api.nvim_buf_set_lines(0, 0, 0, false, { 'FOO' })
check('the last good bibliography', vim.wait(60000, function() return first():find('last good', 1, true) end), first())
vim.api.nvim_buf_set_lines(0, 0, 1, false, {})
check('a new one', vim.wait(60000, function() return not first():find('last good', 1, true) end), first())
vim.fn.cursor(1, 1)
vim.fn.search('FUNCTION {or\\.else}')
vim.fn.search('empty\\$')
check('a built-in function', hover():find('`empty$` integer: 1 if', 1, true) and hover():find('Cost: ', 1, true), hover())
vim.fn.search('{text}', 'b')
vim.cmd('normal! l')
check('a function and its users', hover():find('Functions that use it: ', 1, true), hover())
local uses = ask('textDocument/references', vim.tbl_extend('force', vim.lsp.util.make_position_params(), { context = { includeDeclaration = true } }))
vim.lsp.buf.rename('some.text')
check('a function with another name', vim.wait(60000, function()
  return #vim.tbl_filter(function(l) return l:find('some.text', 1, true) end, vim.api.nvim_buf_get_lines(0, 0, -1, false)) > 1
end), uses)
check('all its uses', #uses == select(2, table.concat(vim.api.nvim_buf_get_lines(0, 0, -1, false), '\n'):gsub('some%.text', '')), uses)
vim.fn.append(vim.fn.search('FUNCTION {comma}') - 1, 'FUNCTION {not.used} { skip$ }')
check('a function that nothing uses', vim.wait(60000, function()
  return #vim.tbl_filter(function(d) return d.message == 'Nothing uses `not.used`.' end, vim.diagnostic.get(0)) == 1
end), vim.diagnostic.get(0))
-- A fault of the check, and the entry that triggers it.
vim.cmd('split library.bib')
vim.cmd('wincmd p')
vim.fn.append(vim.fn.search('FUNCTION {proceedings}') + 1, '  editor empty$ { "none" write$ } if$')
local fault
check('a fault of the style', vim.wait(60000, function()
  fault = vim.tbl_filter(function(d) return d.code == 'empty' end, vim.diagnostic.get(0))[1]
  return fault
end), vim.diagnostic.get(0))
vim.fn.cursor(fault.lnum + 1, fault.col + 1)
local asked
vim.ui.select = function(items, _, choose)
  asked = vim.tbl_map(function(item) return item[2].title end, items)
  choose(items[1])
end
vim.lsp.buf.code_action()
check('an entry to try', vim.wait(60000, function()
  return vim.api.nvim_buf_get_lines(vim.fn.bufnr('library.bib'), -2, -1, false)[1]:find('^@proceedings{a[,}]')
end) and vim.deep_equal(asked, { 'Insert the entry to try into library.bib' }), asked)
vim.fn.mkdir('chapters')
vim.fn.writefile({ '% !TEX root = ../paper.tex', '\\cite{neumann:games}' }, 'chapters/one.tex')
vim.cmd('edit chapters/one.tex')
vim.cmd('normal! 2G0fg')
local place = ask('textDocument/definition', vim.lsp.util.make_position_params())
check('the paper of a chapter', place and vim.endswith((place[1] or place).uri, '/library.bib'), place)
out:write('done\n')
out:close()
vim.cmd('qall!')
