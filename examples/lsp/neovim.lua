-- Edits each of $FILES at random, and compares the buffer with the text that the language server holds.

local texts = {"x", "(", ")", "[]", "{", "}", "😀", "e\u{301}", "\u{301}", "é", " ", "\u{2028}"}
local keys = {"x", "X", "yyp", "yyP", "J", "~", "D", "dw", ">>", "o({\27", "O😀\27", "Ae\u{301}\27", "i[\27", "xp", "guu", "p"}
local keys_of_many_lines = {"dd", "2dd", "ddp", "dgg", "dG"}
local endings = {unix = "\n", dos = "\r\n", mac = "\r"}
local compared = 0

local function one_of(list)
  return list[math.random(#list)]
end

local function buffer_text()
  local ending = endings[vim.bo.fileformat]
  local text = table.concat(vim.api.nvim_buf_get_lines(0, 0, -1, true), ending)
  return vim.bo.eol and text .. ending or text
end

-- The client's answer to a request; it sends the changes before it.
local function ask(method, params)
  params = params or {textDocument = vim.lsp.util.make_text_document_params()}
  local answers, failure = vim.lsp.buf_request_sync(0, method, params, 10000)
  local answer = answers and select(2, next(answers))
  if not answer or answer.err then
    error(method .. ": " .. vim.inspect(failure or answer))
  end
  return answer.result
end

local function compare(moment)
  local held, wanted = ask("lodvark/text").text, buffer_text()
  if held ~= wanted then
    error(moment .. ": the server holds " .. vim.inspect(held) .. ", the buffer " .. vim.inspect(wanted))
  end
  compared = compared + 1
end

-- A place between two characters, which may stand inside what is shown as one, as bytes.
local function random_place(row)
  local line = vim.api.nvim_buf_get_lines(0, row, row + 1, true)[1]
  local column = vim.fn.byteidxcomp(line, math.random(0, 12))
  return column < 0 and #line or column
end

local function replace_text()
  local row = math.random(vim.api.nvim_buf_line_count(0)) - 1
  local last = math.min(row + math.random(0, 1), vim.api.nvim_buf_line_count(0) - 1)
  local from, to = random_place(row), random_place(last)
  if row == last and to < from then
    from, to = to, from
  end
  local lines = {}
  for at = 1, math.random(1, 3) do
    lines[at] = one_of(texts)
  end
  vim.api.nvim_buf_set_text(0, row, from, last, to, lines)
end

-- At least one line is left: where none is, neovim 0.7 loses the break at the end of the text in what it tells a server.
local function press_keys()
  local lines = vim.api.nvim_buf_line_count(0)
  local cursor = math.random(lines)
  local are_many = cursor > 2 and cursor < lines - 1
  vim.api.nvim_win_set_cursor(0, {cursor, 0})
  vim.cmd("silent! normal! " .. string.rep("l", math.random(0, 6)))
  vim.cmd("silent! normal! " .. one_of(are_many and math.random(2) == 1 and keys_of_many_lines or keys))
end

local function undo()
  vim.cmd(string.rep("silent! undo", math.random(3), " | "))
end

local function redo()
  vim.cmd("silent! redo")
end

-- Where the file is empty, some lines, which no undo takes away.
local function begin_with_lines()
  if vim.fn.wordcount().chars == 0 then
    vim.bo.undolevels = -1
    vim.api.nvim_buf_set_lines(0, 0, -1, true, {"first", "", "(last"})
    vim.bo.undolevels = 1000
  end
end

local steps = {replace_text, replace_text, press_keys, press_keys, press_keys, undo, redo}

-- Where the last line has no break, neovim 0.7 tells a server of a change there as if it had one. So the whole text is told.
local function tell_whole_texts()
  local config = vim.lsp.get_client_by_id(lodvark).config
  lodvark = vim.lsp.start_client(vim.tbl_extend("force", config, {flags = {allow_incremental_sync = false}}))
end

local function open(file)
  vim.cmd("edit " .. file)
  if not vim.wait(10000, function() return next(vim.lsp.buf_get_clients(0)) ~= nil end, 10) then
    error("no server for " .. file)
  end
end

local function edit(file)
  if file:find("no_end") then
    tell_whole_texts()
  end
  open(file)
  compare(file .. " as opened")
  begin_with_lines()
  for step = 1, tonumber(vim.env.STEPS) do
    vim.cmd("let &g:undolevels = &g:undolevels") -- a step of undo of its own
    one_of(steps)()
    if step % 20 == 0 then
      compare(file .. ", step " .. step)
    end
  end
end

-- Brackets that stand alone are shown where the editor rests.
local function see_diagnostics()
  vim.api.nvim_buf_set_lines(0, 0, -1, true, {"(", "😀 [ ]", "]"})
  if not vim.wait(10000, function() return #vim.diagnostic.get(0) == 2 end, 10) then
    error("diagnostics: " .. vim.inspect(vim.diagnostic.get(0)))
  end
end

-- A word that stands in two files becomes another one in both.
local function rename_in_two(folder)
  local names = {"one.txt", "two.txt"}
  for _, name in ipairs(names) do
    open(folder .. "/" .. name)
    vim.api.nvim_buf_set_lines(0, 0, -1, true, {"old 😀old", "older (old)"})
    compare(name)
  end
  vim.api.nvim_win_set_cursor(0, {2, 7})
  local params = vim.tbl_extend("force", vim.lsp.util.make_position_params(), {newName = "new"})
  vim.lsp.util.apply_workspace_edit(ask("textDocument/rename", params), "utf-16")
  for _, name in ipairs(names) do
    open(folder .. "/" .. name)
    local lines = vim.api.nvim_buf_get_lines(0, 0, -1, true)
    if not vim.deep_equal(lines, {"new 😀new", "older (new)"}) then
      error("renamed in " .. name .. ": " .. vim.inspect(lines))
    end
    compare(name .. ", renamed")
  end
end

local function run()
  math.randomseed(tonumber(vim.env.SEED))
  local files = vim.split(vim.env.FILES, " ")
  for _, file in ipairs(files) do
    edit(file)
  end
  see_diagnostics()
  rename_in_two(vim.fn.fnamemodify(files[1], ":h"))
  return ("%d files, %s steps each, %d times the same"):format(#files, vim.env.STEPS, compared)
end

local is_right, said = xpcall(run, debug.traceback)
io.stdout:write(said, "\n")
vim.cmd(is_right and "qall!" or "cquit!")
