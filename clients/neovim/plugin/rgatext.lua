-- A room of an rgatext server as a buffer of Neovim, by clients/stdio: `:edit ws://127.0.0.1:7878/notes`.
local api, fn, uv = vim.api, vim.fn, vim.loop
local folder = fn.fnamemodify(debug.getinfo(1, "S").source:sub(2), ":p:h:h:h")
local program = { "--experimental-websocket", "--no-warnings", folder .. "/stdio/rgatext-stdio.mjs" }
local marks = api.nvim_create_namespace("rgatext")

-- Milliseconds: until it is told that the program is waited for, until the room has all, and until what is busy or late is looked at again.
local ANSWER, SENDING, BUSY = 2000, 5000, 50

local is_in_block = false -- from where a block is put into or typed over until that insertion ends

-- Whether others' text would come between what is done. (Replace mode knows by its place what stood under each letter that was typed, and
-- insertion in a block its lines by their numbers. While an `<expr>` mapping asks for a key nothing may be changed, nor a window chosen.)
local function is_busy()
  local is_free = { n = true, niI = true, i = not is_in_block, t = true, nt = true }
  local may_change = pcall(api.nvim_set_current_win, api.nvim_get_current_win())
  return not is_free[api.nvim_get_mode().mode] or fn.pumvisible() == 1 or not may_change
end

local function say(text, kind) api.nvim_echo({ { text, kind } }, kind ~= nil, {}) end

local Room = {}
Room.__index = Room
local rooms = {} -- of each buffer

-- Whether the buffer is there, and is still this room.
function Room:is_there() return rooms[self.buffer] == self and api.nvim_buf_is_loaded(self.buffer) end

function Room:send(request)
  if not self.over then self.input:write(vim.json.encode(request) .. "\n") end
end

-- Hears a line of the program: an answer and its end at once, all else as soon as nothing else is done.
function Room:hear(line)
  local told = vim.json.decode(line)
  local trouble = told.refused or told.wrong
  if told.closed then return self:ends(told) end
  if not (told.state or told.news or trouble) then
    self.answer = told
    return
  end
  vim.schedule(function()
    if self.over or not self:is_there() then return end
    if told.state then return self:show(told) end
    if told.news then
      self.has_news = true
      return self:keep_in_step()
    end
    say("rgatext: " .. trouble, "WarningMsg")
    if told.wrong then self:give_up() end
  end)
end

-- Sends a request and gives its answer, or what the program said at its end. Nothing is typed meanwhile. Where that is late it is told, and
-- CTRL-C gives the program up.
function Room:ask(request)
  local function is_done() return self.answer ~= nil or self.over ~= nil end
  local late, is_told = uv.now() + (request.flush or 0) + ANSWER, false
  self.answer = nil
  self:send(request)
  while not is_done() do
    local _, why = vim.wait(math.max(late - uv.now(), BUSY), is_done, 1, true) -- (CTRL-C ends it, too)
    if is_told and why == -2 then self:give_up() end
    if not is_told and uv.now() >= late then
      is_told = true
      say("rgatext: waiting for its program; CTRL-C gives it up", "WarningMsg")
      vim.cmd("redraw")
    end
  end
  if is_told then say("") end
  return self.answer or self.over
end

-- What the program has isn't known any more. It sends what was written to it, and says what the room doesn't have.
function Room:give_up()
  self.process:kill("sigterm")
  self:ends("is still ending")
end

-- Nobody carries changes any more: `last` is what the program told, or how it ended.
function Room:ends(last)
  if self.over and self.over.closed then return end
  local is_known = type(last) == "table"
  self.over = is_known and last or { words = "what the room doesn't have isn't known: its program " .. last }
  vim.schedule(function()
    if not self:is_there() then return end
    local ahead = vim.bo[self.buffer].modified
    if is_known then ahead = not last.sent or self:whole() ~= self.text end
    self:show({ state = "closed", words = "closed: its program has ended", ahead = ahead, heard = self.over.heard or self.sent })
  end)
end

-- Shows how it stands: in the status line, by 'modified', which is what the room isn't told to have, and at its turns by 'modifiable'.
function Room:show(told)
  local is_fixed = told.state == "refused" or told.state == "closed"
  if is_fixed ~= self.is_fixed then vim.bo[self.buffer].modifiable = not is_fixed end
  self.told, self.is_fixed = told, is_fixed
  vim.b[self.buffer].rgatext = told.words
  vim.bo[self.buffer].modified = told.ahead or told.heard < self.sent or self.is_due
  vim.cmd("redrawstatus!")
end

-- Sends what was done here and takes what others did, as soon as the editor isn't busy.
function Room:keep_in_step()
  if self.is_due then return end
  self.is_due = true
  local function does()
    if self:is_there() and is_busy() then return vim.defer_fn(does, BUSY) end
    self.is_due = false
    self:step()
  end
  vim.schedule(does)
end

function Room:step()
  if self.over or not self:is_there() then return end
  self:flush()
  if not self.has_news then return end
  self.has_news = false
  self:bring({ take = true })
end

-- The text: there is an LF between two lines, and none behind the last one.
function Room:whole() return table.concat(api.nvim_buf_get_lines(self.buffer, 0, -1, true), "\n") end

-- Sends the text where it was changed. What differs is found by the program, by the caret where letters are alike.
function Room:flush()
  local text = self:whole()
  if text ~= self.text then
    local is_current = api.nvim_get_current_buf() == self.buffer
    self:send({ whole = text, caret = is_current and self:before(fn.line(".") - 1) + fn.col(".") - 1 or nil })
    self.text, self.sent = text, self.sent + 1
  end
  self:show(self.told)
end

-- How many bytes stand before a row, whatever 'fileformat' says of the ends of lines. (Neovim says -1 where the text is empty.)
function Room:before(row) return math.max(0, api.nvim_buf_get_offset(self.buffer, row)) end

-- The row and the column that have so many bytes before them. (Neovim counts a line that it changed last in the current buffer alone.)
function Room:position(place)
  return unpack(api.nvim_buf_call(self.buffer, function()
    local row, beyond = 0, api.nvim_buf_line_count(self.buffer)
    while beyond - row > 1 do
      local middle = math.floor((row + beyond) / 2)
      if self:before(middle) <= place then
        row = middle
      else
        beyond = middle
      end
    end
    return { row, place - self:before(row) }
  end))
end

-- A mark that stays in the text: on the character behind it, or else behind the one before.
function Room:mark(row, column, is_on_character)
  return api.nvim_buf_set_extmark(self.buffer, marks, row, column, { right_gravity = is_on_character })
end

-- The row and the column of a mark.
function Room:marked(mark) return unpack(api.nvim_buf_get_extmark_by_id(self.buffer, marks, mark, {})) end

-- Plays changes that the program knows. Carets stay where they are in the text: on their character, or in Insert mode behind that before.
-- Their lines stay where they are seen.
function Room:play(told)
  local views, current, had_moved, is_modifiable = {}, api.nvim_get_current_win(), self.has_moved, vim.bo[self.buffer].modifiable
  local typing = api.nvim_get_mode().mode:find("i") and current -- the window that is typed in
  for _, window in ipairs(fn.win_findbuf(self.buffer)) do
    local view = api.nvim_win_call(window, fn.winsaveview)
    view.mark = self:mark(view.lnum - 1, view.col, window ~= typing and self.text ~= "")
    views[window] = view
  end
  vim.bo[self.buffer].modifiable = true
  local began_row, began_column = self:marked(self.began)
  local caret = api.nvim_win_get_cursor(0)
  local has_typed = caret[1] ~= began_row + 1 or caret[2] ~= began_column
  local began = self:mark(began_row, began_column, has_typed)
  for _, it in ipairs(told.changes or {}) do -- (none where the program is over)
    local at, removed, text = unpack(it)
    local row, column = self:position(at)
    local last_row, last_column = self:position(at + removed)
    api.nvim_buf_set_text(self.buffer, row, column, last_row, last_column, vim.split(text, "\n", { plain = true }))
  end
  vim.bo[self.buffer].modifiable = is_modifiable
  for window, view in pairs(views) do
    local row, column = self:marked(view.mark)
    if told.caret and window == current then row, column = self:position(told.caret) end
    view.topline = math.max(1, view.topline + row + 1 - view.lnum)
    view.lnum, view.col, view.curswant = row + 1, column, column == view.col and view.curswant or nil
    api.nvim_win_call(window, function() fn.winrestview(view) end)
  end
  local row, column = self:marked(began)
  self:begin(row, column)
  self.has_moved = had_moved or row ~= began_row or column ~= began_column
  self.text = self:whole()
  self:show(self.told)
end

-- Asks for changes and plays them. Where that fails the program is given up: what isn't shown would be taken to be deleted.
function Room:bring(request)
  local is_played, why = pcall(self.play, self, self:ask(request))
  if is_played then return end
  self:give_up()
  api.nvim_err_writeln("rgatext: " .. why)
end

-- Undoes one's own last step, or does it again.
function Room:turn(does)
  if not vim.bo[self.buffer].modifiable then return api.nvim_err_writeln("E21: Cannot make changes, 'modifiable' is off") end
  self:step()
  for _ = 1, vim.v.count1 do
    self:bring({ [does] = true })
  end
end

-- Insert mode begins at a place.
function Room:begin(row, column)
  api.nvim_buf_clear_namespace(self.buffer, marks, 0, -1)
  self.began, self.has_moved = self:mark(row, column, false), false
end

-- Deletes what a pattern finds before the caret: in what was typed since Insert mode began, or else in the line. Neovim's key knows that
-- place by its row and column: it does until others' changes come before it.
function Room:erase(key, pattern)
  local row, column = fn.line(".") - 1, fn.col(".") - 1
  if column == 0 or not self.has_moved then return api.nvim_feedkeys("\7u" .. key, "ni", false) end -- (CTRL-G u, as Neovim maps it)
  local began_row, began_column = self:marked(self.began)
  local start = began_row == row and began_column < column and began_column or 0
  start = start + fn.match(fn.getline("."):sub(start + 1, column), pattern)
  api.nvim_buf_set_text(self.buffer, row, start, row, column, { "" })
  fn.cursor(row + 1, start + 1)
end

-- Waits until the room has all that was done here, or says what is wrong. Others' changes aren't taken: an event may write at any time.
function Room:write()
  self:flush()
  local answer = self:ask({ flush = SENDING })
  if not (answer.flushed and answer.sent) then return api.nvim_err_writeln("rgatext: " .. answer.words) end
  self.told.ahead, self.told.heard = false, self.sent
  vim.bo[self.buffer].modified = false -- also where news is due
end

-- Leaves the room. The program ends once what is new was sent, in two seconds.
function Room:leave()
  rooms[self.buffer] = nil
  self:flush()
  self:send({ close = true })
end

-- Opens the room that a buffer is named after.
local function open(buffer)
  local address, name = api.nvim_buf_get_name(buffer):match("^(wss?://.+)/([^/]+)$")
  if not address then return api.nvim_err_writeln("rgatext: a room is ws://HOST:PORT/ROOM") end
  local self = setmetatable({ buffer = buffer, text = "", sent = 0, is_due = false, input = uv.new_pipe() }, Room)
  local output, held, why = uv.new_pipe(), "", nil
  local arguments = vim.list_extend({ unpack(program) }, { address, name, "bytes" })
  local function ends() self:ends("has ended without a word") end
  self.process, why = uv.spawn("node", { args = arguments, stdio = { self.input, output, nil } }, ends)
  if not self.process then return api.nvim_err_writeln("rgatext: node can't be started: " .. why) end
  output:read_start(function(_, block)
    local lines = vim.split(held .. (block or ""), "\n", { plain = true })
    held = table.remove(lines)
    for _, line in ipairs(lines) do
      self:hear(line)
    end
  end)
  rooms[buffer] = self
  self:begin(0, 0)
  vim.bo[buffer].modifiable = true -- (else `fileformat` can't be set)
  for option, value in pairs({ swapfile = false, undolevels = -1, fileformat = "unix", fixendofline = false, endofline = false }) do
    vim.bo[buffer][option] = value
  end
  self:show({ state = "joining", words = "joining", ahead = false, heard = 0 })
  api.nvim_buf_attach(buffer, false, { on_lines = function() self:keep_in_step() end })
  for key, does in pairs({ u = "undo", U = "undo", ["<C-r>"] = "redo" }) do
    vim.keymap.set("n", key, function() self:turn(does) end, { buffer = buffer })
  end
  for key, pattern in pairs({ ["\21"] = "^", ["\23"] = [[\%(\k\+\|\%(\k\@!\S\)\+\)\?\s*$]] }) do -- CTRL-U and CTRL-W
    vim.keymap.set("i", key, function() self:erase(key, pattern) end, { buffer = buffer })
  end
  local requests = { Unsent = { unsent = true }, Other = { other = true }, Theirs = { choose = "theirs" }, Mine = { choose = "mine" } }
  for name, request in pairs(requests) do
    api.nvim_buf_create_user_command(buffer, "Rgatext" .. name, function()
      self:step()
      say(self:ask(request).words)
    end, {})
  end
end

local group = api.nvim_create_augroup("rgatext", {})
local function on(event, does, pattern)
  api.nvim_create_autocmd(event, { group = group, pattern = pattern or { "ws://*", "wss://*" }, callback = does })
end
local function of_room(does)
  return function(it)
    if rooms[it.buf] then does(rooms[it.buf]) end
  end
end
on("ModeChanged", function()
  local old, new = vim.v.event.old_mode, vim.v.event.new_mode
  local is_insertion = new:find("^i") ~= nil or new == "niI"
  is_in_block = is_insertion and (is_in_block or old:find("[\22\19]") ~= nil)
end, "*")
on("BufReadCmd", function(it) open(it.buf) end)
on("BufWriteCmd", function(it)
  local room = rooms[it.buf]
  local is_own = room and it.match == api.nvim_buf_get_name(it.buf)
  if not is_own then return api.nvim_err_writeln("rgatext: a room is written only by its own buffer") end
  room:write()
end)
on("BufWritePost", of_room(Room.keep_in_step), "*") -- (a copy may set 'modified' off)
on("BufUnload", of_room(Room.leave))
on("InsertEnter", of_room(function(room) room:begin(fn.line(".") - 1, fn.col(".") - 1) end))
on("BufWinEnter", function() vim.wo.statusline = "%<%f  %{get(b:,'rgatext','')} %m%=%l,%c" end)
vim.cmd("autocmd rgatext BufFilePre ws://*,wss://* throw 'rgatext: a room keeps its name; :w FILE saves a copy'") -- (Lua can't stop it)
