-- Starts bibtex-lsp for the files of a paper, in Neovim 0.7 or later.
--
-- Load it from init.lua:
--
--   dofile(vim.fn.expand('~/.local/share/dulshenko/editors/neovim/bibtex-lsp.lua'))
--
-- Each paper has one server. A file's paper is that of its `% !TEX root`, else the newest .aux file that names the file: in
-- the file's folder, in an output folder of it, or in the folder above. A file that no .aux file names joins the paper of the
-- file you came from; if there is none, the newest .aux file that names a database is its paper. :BibtexRoot chooses another
-- one, for all files of the folder. g:bibtex_lsp_job names a job, and g:bibtex_lsp_program is the program, if it isn't
-- bibtex-lsp on the PATH.
--
-- K shows what an entry prints, CTRL-X CTRL-O completes, and a line over each entry or function says what a run made of it.
-- gf on a name in \bibliography or \include opens the file, and :BibtexFold folds each entry or function.
-- :BibtexBibliography opens a window with the bibliography, which follows each change. In it, gd goes to the field that a
-- byte comes from, and gy to the word of the style that wrote it. :BibtexLog opens one with the log of the run.

local clients = {} -- by the paper's .aux file, or its folder
local windows = {} -- the buffers of a client that follow its answers, by the request
local watches = {} -- the watched folders of a client
local names = {} -- the URIs that a client has for files, where Neovim has others, by Neovim's
local chosen = {} -- the .aux file that :BibtexRoot has chosen, by the folder of the files
local leading -- the client that leads to the file that is opened

-- The folders in which LaTeX may write the files of a folder.
local function outputs(folder)
  local names = { folder }
  for _, rc in ipairs({ 'latexmkrc', '.latexmkrc' }) do
    if vim.fn.filereadable(folder .. '/' .. rc) == 1 then
      for _, line in ipairs(vim.fn.readfile(folder .. '/' .. rc, '', 200)) do
        local name = line:match('^%s*%$[auxot]+_dir%s*=%s*["\']([^"\']+)["\']')
        if name then table.insert(names, name:sub(1, 1) == '/' and name or folder .. '/' .. name) end
      end
    end
  end
  for _, name in ipairs({ 'build', 'out', 'output', 'aux', '.aux', 'tmp' }) do table.insert(names, folder .. '/' .. name) end
  return names
end

-- The .aux files of a folder and its output folders that name a database, the newest first.
local function jobs(folder)
  local found = {}
  for _, place in ipairs(outputs(folder)) do
    for _, path in ipairs(vim.fn.glob(place .. '/*.aux', true, true)) do
      local text = table.concat(vim.fn.readfile(path), '\n')
      local stat = vim.loop.fs_stat(path)
      if stat and text:find('\\bibdata{', 1, true) then
        table.insert(found, { path = path, folder = folder, text = text, time = stat.mtime.sec + stat.mtime.nsec / 1e9 })
      end
    end
  end
  table.sort(found, function(a, b) return a.time > b.time end)
  return found
end

-- How an .aux file is about a file: 2 if it is the paper's own, 1 if it names the file, else 0.
local function about(job, file)
  local name, kind = vim.fn.fnamemodify(file, ':t:r'), vim.fn.fnamemodify(file, ':e')
  local command = ({ bib = 'bibdata', bst = 'bibstyle' })[kind]
  if not command and vim.fn.fnamemodify(job.path, ':t:r') == name then return 2 end
  for list in job.text:gmatch('\\' .. (command or '@input') .. '{([^}]*)}') do
    for one in list:gmatch('[^,]+') do
      local tail = vim.fn.fnamemodify(one, ':t')
      if tail == name or tail == name .. (command and '.' .. kind or '.aux') then return 1 end
    end
  end
  return 0
end

-- The folders whose papers may have a file.
local function near(file)
  local here = vim.fn.fnamemodify(file, ':p:h')
  return { here, vim.fn.fnamemodify(here, ':h') }
end

-- The paper of an .aux file: its folder, job and output folder.
local function paper_of(path, folder)
  return { folder = folder, job = vim.fn.fnamemodify(path, ':t:r'), output = vim.fn.fnamemodify(path, ':h') }
end

-- The paper that the present buffer names, or that names it, or nil.
local function named_paper(file)
  local here, up = unpack(near(file))
  if chosen[here] then return chosen[here] end
  for _, line in ipairs(vim.api.nvim_buf_get_lines(0, 0, 20, false)) do
    local root = line:match('^%s*%%%s*![Tt][Ee][Xx]%s+[Rr][Oo][Oo][Tt]%s*=%s*(.-)%s*$')
    if root then
      local path = vim.fn.simplify(root:sub(1, 1) == '/' and root or here .. '/' .. root)
      local folder, job = vim.fn.fnamemodify(path, ':h'), vim.fn.fnamemodify(path, ':t'):gsub('%.tex$', '')
      for _, place in ipairs(outputs(folder)) do
        if vim.fn.filereadable(place .. '/' .. job .. '.aux') == 1 then return { folder = folder, job = job, output = place } end
      end
      return { folder = folder, job = job, output = folder }
    end
  end
  for _, way in ipairs({ 2, 1 }) do
    for _, folder in ipairs({ here, up }) do
      for _, job in ipairs(jobs(folder)) do
        if about(job, file) == way then return paper_of(job.path, folder) end
      end
    end
  end
end

-- The newest paper near a file, or one without a job.
local function newest_paper(file)
  for _, folder in ipairs(near(file)) do
    local newest = jobs(folder)[1]
    if newest then return paper_of(newest.path, folder) end
  end
  return { folder = near(file)[1], output = near(file)[1] }
end

-- The client of a buffer, or nil.
local function client_of(buffer)
  for _, client in pairs(vim.lsp.buf_get_clients(buffer)) do
    if client.name == 'bibtex-lsp' then return client end
  end
end

-- The client of the present buffer, which may be one of its windows, or nil.
local function client_here()
  for id, buffers in pairs(windows) do
    if vim.tbl_contains(vim.tbl_values(buffers), vim.api.nvim_get_current_buf()) then return vim.lsp.get_client_by_id(id) end
  end
  return client_of(0)
end

-- Fills the windows of a client: its bibliography and its log.
local function show(client)
  for method, buffer in pairs(windows[client.id] or {}) do
    client.request(method, vim.empty_dict(), function(_, answer)
      if not answer or not vim.api.nvim_buf_is_valid(buffer) then return end
      -- While a style is being written there may be no bibliography: the last good one stays, marked.
      local lines = answer.text ~= '' and vim.split(answer.text, '\n') or vim.api.nvim_buf_get_lines(buffer, 0, -1, false)
      local mark = '% This is the last good bibliography: the messages of the run say why there is no new one.'
      if answer.text == '' and method == 'bibtex/bbl' and lines[1] ~= mark then table.insert(lines, 1, mark) end
      vim.bo[buffer].modifiable = true
      vim.api.nvim_buf_set_lines(buffer, 0, -1, false, lines)
      vim.bo[buffer].modifiable = false
    end)
  end
end

-- Fills them soon: diagnostics come for each open file, and the windows want one answer.
local waiting = {} -- the clients whose windows are to be filled
local function show_soon(client)
  if waiting[client.id] then return end
  waiting[client.id] = true
  vim.schedule(function()
    waiting[client.id] = nil
    show(client)
  end)
end

-- Opens a window that follows the answers to a request, and returns its client and its buffer.
local function open(method, title)
  local client = client_here()
  if not client then return vim.notify('bibtex-lsp: open a file of the paper first', vim.log.levels.WARN) end
  local own = windows[client.id] or {}
  if not own[method] or not vim.api.nvim_buf_is_valid(own[method]) then
    own[method] = vim.api.nvim_create_buf(true, true)
    vim.api.nvim_buf_set_name(own[method], ('[%s of %s %d]'):format(title, client.config.init_options.job or 'the paper', own[method]))
  end
  windows[client.id] = own
  if vim.fn.bufwinnr(own[method]) < 0 then vim.cmd(('botright 15split | %dbuffer | wincmd p'):format(own[method])) end
  show(client)
  return client, own[method]
end

-- Notes the URI that a client has for a file, which has the database ../bib/b in it as the .aux file does.
local function learn(id, uri)
  local own = vim.uri_from_fname(vim.fn.simplify(vim.uri_to_fname(uri)))
  if own ~= uri then names[id][own] = uri end
end

-- Opens the .tex files of the paper's folder, and of those in it, that mention the name under the cursor: a rename changes
-- only open ones.
local function open_mentions(client)
  local line, column = vim.api.nvim_get_current_line(), vim.fn.col('.')
  local name = line:sub(1, column):match('[^%s{},"=()#]*$') .. line:sub(column + 1):match('^[^%s{},"=()#]*')
  for _, pattern in ipairs({ '/*.tex', '/*/*.tex' }) do
    for _, file in ipairs(vim.fn.glob(client.config.root_dir .. pattern, true, true)) do
      if vim.fn.bufloaded(file) == 0 and table.concat(vim.fn.readfile(file), '\n'):find(name, 1, true) then
        local buffer = vim.fn.bufadd(file)
        vim.fn.bufload(buffer)
        vim.bo[buffer].buflisted = true
      end
    end
  end
end

-- Has a client send its own URIs, and open what a rename should change.
local function translate(client)
  names[client.id] = {}
  for _, way in ipairs({ 'request', 'notify' }) do
    local send = client.rpc[way]
    client.rpc[way] = function(method, params, ...)
      if method == 'textDocument/rename' then open_mentions(client) end
      local document = type(params) == 'table' and params.textDocument
      local uri = document and names[client.id][document.uri]
      if uri then params = vim.tbl_deep_extend('force', params, { textDocument = { uri = uri } }) end
      return send(method, params, ...)
    end
  end
end

-- Saves the .aux files that a rename has changed. The server doesn't follow their buffers, and LaTeX writes them anew.
local function save_renamed(client, found)
  for _, change in ipairs(found and found.documentChanges or {}) do
    local path = vim.uri_to_fname(change.textDocument.uri)
    local buffer = vim.fn.bufnr('^' .. vim.fn.escape(path, '\\*?[]{},') .. '$')
    if path:match('%.aux$') and buffer > 0 and vim.bo[buffer].modified and not client_of(buffer) then
      vim.api.nvim_buf_call(buffer, function() vim.cmd('silent noautocmd write!') end)
      client.notify('workspace/didChangeWatchedFiles', { changes = { { uri = change.textDocument.uri, type = 2 } } })
    end
  end
end

-- Goes to where the byte under the cursor comes from: the `field`, or the style's `word`.
local function go(client, what)
  local at = vim.lsp.util.make_position_params(0, client.offset_encoding).position
  client.request('bibtex/origin', { position = at }, function(_, origin)
    local place = type(origin) == 'table' and origin[what]
    if type(place) ~= 'table' then return vim.notify('bibtex-lsp: no ' .. what .. ' is known for this place') end
    vim.cmd('wincmd p')
    leading = client.id
    learn(client.id, place.uri)
    vim.lsp.util.jump_to_location(place, client.offset_encoding)
    leading = nil
  end)
end

-- Tells a client when LaTeX has written files of these folders: Neovim 0.7 watches none for a server.
local function watch(client, folders)
  local timer = vim.loop.new_timer()
  watches[client.id] = { timer }
  for folder in pairs(folders) do
    local event = vim.loop.new_fs_event()
    table.insert(watches[client.id], event)
    event:start(folder, {}, function(fault, name)
      if fault or not (name and (name:match('%.aux$') or name:match('%.bib$') or name:match('%.bst$'))) then return end
      -- LaTeX writes a file in pieces: wait until it is quiet.
      timer:start(200, 0, vim.schedule_wrap(function()
        client.notify('workspace/didChangeWatchedFiles', { changes = { { uri = vim.uri_from_fname(folder .. '/' .. name), type = 2 } } })
      end))
    end)
  end
end

local attach
local crashed = -math.huge -- when a server ended last that wasn't told to

-- Starts a client again whose server has ended, with its windows, unless another one ended within the last ten seconds.
local function restart(id)
  local is_first = vim.loop.now() - crashed > 10000
  crashed = vim.loop.now()
  if not is_first then return vim.notify('bibtex-lsp: the server has ended again; :edit starts it', vim.log.levels.WARN) end
  for _, buffer in ipairs(vim.api.nvim_list_bufs()) do
    if vim.b[buffer].bibtex_lsp == id and vim.api.nvim_buf_is_loaded(buffer) and not client_of(buffer) then
      vim.api.nvim_buf_call(buffer, attach)
      windows[vim.b[buffer].bibtex_lsp], windows[id] = windows[id] or windows[vim.b[buffer].bibtex_lsp], nil
    end
  end
end

-- The client of a paper, started if there is none.
local function start(paper)
  local job = vim.g.bibtex_lsp_job or paper.job
  local key = job and paper.output .. '/' .. job or paper.folder
  -- One that is still starting counts, too: `nvim -p` opens several files at once.
  if clients[key] and vim.lsp.get_client_by_id(clients[key]) then return clients[key] end
  clients[key] = vim.lsp.start_client({
    name = 'bibtex-lsp',
    cmd = vim.list_extend({ vim.g.bibtex_lsp_program or 'bibtex-lsp', '--search=' .. paper.folder, '--search=' .. paper.output }, job and { '--job=' .. job } or {}),
    cmd_cwd = paper.folder,
    root_dir = paper.folder,
    init_options = job and { job = job } or vim.empty_dict(),
    on_init = function(client)
      translate(client)
      watch(client, { [paper.folder] = true, [paper.output] = true })
    end,
    on_exit = function(code, signal, id)
      for _, handle in ipairs(watches[id] or {}) do handle:close() end
      watches[id] = nil
      if code ~= 0 or signal ~= 0 and signal ~= 15 then vim.schedule(function() restart(id) end) end
    end,
    handlers = {
      ['textDocument/definition'] = function(fault, found, context, settings)
        for _, place in ipairs(found and (found.uri and { found } or found) or {}) do learn(context.client_id, place.uri) end
        return vim.lsp.handlers['textDocument/definition'](fault, found, context, settings)
      end,
      ['textDocument/rename'] = function(fault, found, context, settings)
        vim.lsp.handlers['textDocument/rename'](fault, found, context, settings)
        save_renamed(vim.lsp.get_client_by_id(context.client_id), found)
      end,
      ['textDocument/publishDiagnostics'] = function(fault, found, context, settings)
        vim.lsp.diagnostic.on_publish_diagnostics(fault, found, context, settings)
        local client = vim.lsp.get_client_by_id(context.client_id)
        if client then show_soon(client) end
      end,
    },
  })
  return clients[key]
end

-- Where the word before the cursor begins that is completed: in LaTeX the text after a brace or a comma, which may have
-- colons and spaces in it.
local function beginning(line, item)
  if vim.bo.filetype:match('tex$') then return #line - #line:match('[^{,]*$'):gsub('^%s+', '') end
  if item and item.textEdit then return vim.str_byteindex(line, item.textEdit.range.start.character, true) end
  return #line - #line:match('[^%s{}(,"=@#]*$')
end

-- The function of CTRL-X CTRL-O. An item fits if each word that was typed is in its name or, for a key, in its author or title.
local items = {}
function _G.bibtex_lsp_complete(is_first, base)
  if is_first == 1 then
    local client = client_of(0)
    local at = client and vim.lsp.util.make_position_params(0, client.offset_encoding)
    local answer = client and client.request_sync('textDocument/completion', at, 2000, vim.api.nvim_get_current_buf())
    local result = answer and answer.result
    items = type(result) == 'table' and (result.items or result) or {}
    return beginning(vim.api.nvim_get_current_line():sub(1, vim.fn.col('.') - 1), items[1])
  end
  local fitting, order = {}, {}
  for place, item in ipairs(items) do
    local text, fits = (item.label .. ' ' .. (item.filterText or '')):lower(), true
    for word in base:lower():gmatch('%S+') do fits = fits and text:find(word, 1, true) end
    if fits then table.insert(fitting, item) end
    -- Names that begin so come first, then the server's order.
    order[item] = ('%s%s %06d'):format(vim.startswith(text, base:lower()) and '0' or '1', item.sortText or '', place)
  end
  table.sort(fitting, function(a, b) return order[a] < order[b] end)
  return vim.tbl_map(function(item)
    local word = item.textEdit and item.textEdit.newText or item.insertText or item.label
    return { word = word, abbr = item.label, menu = item.detail, icase = 1, dup = 1 }
  end, fitting)
end

-- The answer to a request about the present document, or nil.
local function asked(method)
  local client = client_of(0)
  local answer = client and client.request_sync(method, { textDocument = vim.lsp.util.make_text_document_params() }, 2000, 0)
  return answer and type(answer.result) == 'table' and answer.result or nil
end

-- Opens the file that is named under the cursor, or does what gf does. LaTeX takes the names in a chapter from the paper's
-- folder.
local function follow_link()
  local at = vim.lsp.util.make_position_params().position
  for _, link in ipairs(asked('textDocument/documentLink') or {}) do
    if link.range.start.line == at.line and link.range.start.character <= at.character and at.character < link.range['end'].character then
      local path = vim.uri_to_fname(link.target)
      local inside = client_of(0).config.root_dir .. path:sub(#vim.fn.expand('%:p:h') + 1)
      if vim.fn.filereadable(path) == 0 and vim.fn.filereadable(inside) == 1 then path = inside end
      return vim.cmd('edit ' .. vim.fn.fnameescape(path))
    end
  end
  local is_there, fault = pcall(vim.cmd, 'normal! gf')
  if not is_there then vim.notify(fault:match('E%d+:.*') or fault, vim.log.levels.ERROR) end
end

-- What Neovim 0.7 doesn't set for a buffer with a server: its key for a hover, its completion, and when lenses are drawn.
local function set_up(buffer)
  vim.api.nvim_buf_call(buffer, function()
    if vim.fn.maparg('K', 'n') == '' then vim.keymap.set('n', 'K', function() vim.lsp.buf.hover() end, { buffer = buffer, desc = 'bibtex-lsp: what it prints' }) end
  end)
  if vim.bo[buffer].filetype:match('tex$') and vim.fn.maparg('gf', 'n') == '' then
    vim.keymap.set('n', 'gf', follow_link, { buffer = buffer, desc = 'bibtex-lsp: the file of this name' })
  end
  if vim.tbl_contains({ '', 'v:lua.vim.lsp.omnifunc' }, vim.bo[buffer].omnifunc) then vim.bo[buffer].omnifunc = 'v:lua.bibtex_lsp_complete' end
  local group = vim.api.nvim_create_augroup('bibtex_lsp_' .. buffer, {})
  vim.api.nvim_create_autocmd({ 'BufEnter', 'CursorHold', 'InsertLeave', 'TextChanged' }, {
    group = group,
    buffer = buffer,
    callback = function() if client_of(buffer) then vim.lsp.codelens.refresh() end end,
  })
  vim.api.nvim_create_autocmd({ 'BufEnter', 'CursorHold' }, {
    group = group,
    buffer = buffer,
    callback = function()
      local client = client_of(buffer)
      -- There was no .aux file; LaTeX may have run since.
      if client and not client.config.init_options.job then attach() end
    end,
  })
end

-- Takes a buffer from a client, with what it drew there. A client without buffers ends.
local function detach(buffer, client)
  vim.cmd(('silent lua vim.lsp.buf_detach_client(%d, %d)'):format(buffer, client.id))
  if vim.tbl_isempty(vim.lsp.get_buffers_by_client_id(client.id)) then
    for key, id in pairs(clients) do
      if id == client.id then clients[key] = nil end
    end
    client.stop()
  end
  vim.diagnostic.reset(vim.lsp.diagnostic.get_namespace(client.id), buffer)
  vim.api.nvim_buf_clear_namespace(buffer, vim.api.nvim_create_namespace('vim_lsp_codelens:' .. client.id), 0, -1)
end

-- Attaches the present buffer to the client of its paper.
attach = function()
  if vim.bo.buftype ~= '' then return end
  local buffer, file = vim.api.nvim_get_current_buf(), vim.fn.expand('%:p')
  local before = client_of(vim.fn.bufnr('#'))
  local paper = named_paper(file)
  local id = leading or (paper and start(paper)) or (before and before.id) or start(newest_paper(file))
  if not id then return end
  local own = client_of(buffer)
  if own and own.id ~= id then detach(buffer, own) end
  vim.lsp.buf_attach_client(buffer, id)
  vim.b.bibtex_lsp = id
  set_up(buffer)
end

vim.api.nvim_create_autocmd('FileType', { pattern = { 'bib', 'bst', 'tex', 'plaintex' }, callback = attach })

-- Chooses the paper of the present buffer and of all others in its folder, by its .aux file.
local function choose(path)
  path = vim.fn.fnamemodify(path, ':p')
  local output = vim.fn.fnamemodify(path, ':h')
  local here, up = unpack(near(vim.fn.expand('%:p')))
  local folders = vim.tbl_filter(function(folder) return vim.tbl_contains(outputs(folder), output) end, { here, up, output })
  chosen[here] = paper_of(path, folders[1])
  for _, buffer in ipairs(vim.api.nvim_list_bufs()) do
    local is_ours = client_of(buffer) or buffer == vim.api.nvim_get_current_buf()
    if is_ours and vim.fn.fnamemodify(vim.api.nvim_buf_get_name(buffer), ':p:h') == here then vim.api.nvim_buf_call(buffer, attach) end
  end
end

vim.api.nvim_create_user_command('BibtexRoot', function(command)
  if command.args ~= '' then return choose(command.args) end
  local found = {}
  for _, folder in ipairs(near(vim.fn.expand('%:p'))) do
    for _, job in ipairs(jobs(folder)) do table.insert(found, job.path) end
  end
  vim.ui.select(found, { prompt = 'The paper of this folder:' }, function(path) if path then choose(path) end end)
end, { nargs = '?', complete = 'file' })

vim.api.nvim_create_user_command('BibtexBibliography', function()
  local client, buffer = open('bibtex/bbl', 'bibliography')
  if not client then return end
  vim.bo[buffer].filetype = 'tex'
  vim.keymap.set('n', 'gd', function() go(client, 'field') end, { buffer = buffer })
  vim.keymap.set('n', 'gy', function() go(client, 'word') end, { buffer = buffer })
end, {})

vim.api.nvim_create_user_command('BibtexLog', function() open('bibtex/log', 'log') end, {})

vim.api.nvim_create_user_command('BibtexFold', function()
  vim.wo.foldmethod = 'manual'
  vim.cmd('normal! zE')
  for _, range in ipairs(asked('textDocument/foldingRange') or {}) do
    vim.cmd(('%d,%dfold'):format(range.startLine + 1, range.endLine + 1))
  end
end, {})
