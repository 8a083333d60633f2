-- Text boundaries for buffers: a session of librbbi for each buffer and kind of segment.
--
-- A session is opened by the first question about a buffer and follows each edit by on_bytes, so a
-- question reads only what lies near the cursor. Places are bytes from 0; each line ends with one
-- byte. Bytes of a buffer that aren't UTF-8 are passed to the library as `?`, so places stay the same.
local ffi = require('ffi')
local api = vim.api

ffi.cdef([[
typedef struct { void *held; } rbbi_table;
typedef struct { void *held; } rbbi_session;
int rbbi_table_named(rbbi_table *table, const char *name);
void rbbi_table_close(rbbi_table *table);
int rbbi_session_open(rbbi_session *session, rbbi_table *table, const char *text, size_t length, int unit);
void rbbi_session_close(rbbi_session *session);
int rbbi_session_replace(rbbi_session *session, uint32_t at, uint32_t remove, const char *insert, size_t length);
int rbbi_session_length(rbbi_session *session, uint32_t *length);
int rbbi_session_following(rbbi_session *session, uint32_t from, uint32_t *place);
int rbbi_session_preceding(rbbi_session *session, uint32_t from, uint32_t *place);
const char *rbbi_message(int answer);
]])

local OK, DONE, UTF8 = 0, 1, 1
local M = {}
local library, tables = nil, {}
-- By the number of a buffer: its open sessions by kind, the edits that they haven't seen, and whether their
-- text is the buffer's own.
local buffers = {}

local function check(answer)
  return answer == OK or error('rbbi: ' .. ffi.string(library.rbbi_message(answer)), 0)
end

-- The table of 'grapheme', 'word', 'sentence' or 'line', loaded once.
local function table_of(kind)
  library = library or ffi.load(vim.g.rbbi_library or 'rbbi')
  if not tables[kind] then
    local loaded = ffi.gc(ffi.new('rbbi_table'), library.rbbi_table_close)
    check(library.rbbi_table_named(loaded, kind))
    tables[kind] = loaded
  end
  return tables[kind]
end

-- The length of a character of UTF-8 that begins with these two bytes, or 0.
local function size(first, second)
  local low = first == 0xE0 and 0xA0 or first == 0xF0 and 0x90 or 0x80
  local high = first == 0xED and 0x9F or first == 0xF4 and 0x8F or 0xBF
  local begins = first >= 0xC2 and first <= 0xF4 and second and second >= low and second <= high
  return begins and (first < 0xE0 and 2 or first < 0xF0 and 3 or 4) or 0
end

-- The text with `?` for each byte that is part of no character of UTF-8.
local function valid(text)
  return (text:gsub('[\192-\255]?[\128-\191]*', function(bytes)
    local kept = bytes ~= '' and size(bytes:byte(1, 2)) or 0
    kept = kept <= #bytes and kept or 0
    return bytes:sub(1, kept) .. ('?'):rep(#bytes - kept)
  end))
end

local function close_all(state)
  for kind, session in pairs(state.sessions) do
    library.rbbi_session_close(session)
    state.sessions[kind] = nil
  end
  state.change = nil
end

-- Joins an edit with those that the sessions haven't seen: where they begin, and where they end in the
-- sessions' text and in the buffer.
local function join(change, at, removed, inserted)
  change = change or { from = at, old_to = at, new_to = at }
  local past = math.max(at + removed - change.new_to, 0)
  local new_to = change.new_to + past - removed + inserted
  return { from = math.min(change.from, at), old_to = change.old_to + past, new_to = new_to }
end

local function attach(buffer)
  local state = { sessions = {} }
  buffers[buffer] = state
  api.nvim_buf_attach(buffer, false, {
    -- The buffer may not have the new text yet, so the next question reads it.
    on_bytes = function(_, _, _, _, _, at, _, _, removed, _, _, inserted)
      state.change = join(state.change, at, removed, inserted)
    end,
    on_reload = function() close_all(state) end,
    on_detach = function()
      close_all(state)
      buffers[buffer] = nil
    end,
  })
  return state
end

-- The byte at a line, from 0, and a column in bytes. (Of the first line the call may answer -1.)
function M.offset(buffer, row, column)
  return (row == 0 and 0 or api.nvim_buf_get_offset(buffer, row)) + column
end

-- The line, from 0, and the column of a byte.
function M.position(buffer, at)
  local low, high = 0, api.nvim_buf_line_count(buffer) - 1
  while low < high do
    local middle = math.ceil((low + high) / 2)
    local is_past = M.offset(buffer, middle, 0) > at
    low, high = is_past and low or middle, is_past and middle - 1 or high
  end
  return low, at - M.offset(buffer, low, 0)
end

-- The text of a buffer between two bytes, in which each line ends with one byte.
local function text_between(buffer, from, to)
  local row, column = M.position(buffer, from)
  local last, last_column = M.position(buffer, to)
  local lines = api.nvim_buf_get_lines(buffer, row, last + 1, false)
  local cut = #lines[#lines] + 1 - last_column
  return (table.concat(lines, '\n') .. '\n'):sub(column + 1, -1 - cut)
end

-- The length of a buffer in bytes.
local function length_of(buffer)
  local last = api.nvim_buf_get_lines(buffer, -2, -1, false)[1]
  return M.offset(buffer, api.nvim_buf_line_count(buffer) - 1, #last + 1)
end

-- Edits the sessions of a buffer as it was edited. They are closed if one refuses, or if bytes that are
-- no character may have become one, and the next question opens them.
local function follow(buffer, state)
  local change = state.change
  local text = text_between(buffer, change.from, math.min(change.new_to, length_of(buffer)))
  local follows = state.is_whole
  for _, session in pairs(state.sessions) do
    follows = follows
      and library.rbbi_session_replace(session, change.from, change.old_to - change.from, text, #text) == OK
      and M.length(session) == length_of(buffer)
  end
  state.change = nil
  if not follows then
    close_all(state)
  end
end

-- The text of a buffer as its sessions have it, and whether it is the buffer's own.
function M.text(buffer)
  local text = text_between(buffer, 0, length_of(buffer))
  local taken = valid(text)
  return taken, taken == text
end

-- A session over a text of UTF-8.
function M.open(text, kind)
  local loaded = table_of(kind)
  local session = ffi.gc(ffi.new('rbbi_session'), library.rbbi_session_close)
  check(library.rbbi_session_open(session, loaded, text, #text, UTF8))
  return session
end

-- The session of a buffer for a kind of segment.
function M.session(buffer, kind)
  local state = buffers[buffer] or attach(buffer)
  if state.change then
    follow(buffer, state)
  end
  if not state.sessions[kind] then
    local text
    text, state.is_whole = M.text(buffer)
    state.sessions[kind] = M.open(text, kind)
  end
  return state.sessions[kind]
end

local number = ffi.new('uint32_t[1]')

-- The place that a call wrote, or nil if it answered that there is none.
local function place_of(answer)
  return answer ~= DONE and check(answer) and number[0] or nil
end

function M.length(session)
  return place_of(library.rbbi_session_length(session, number))
end

-- The first boundary after a place, and the last one before it.
for _, name in ipairs({ 'following', 'preceding' }) do
  M[name] = function(session, at)
    return place_of(library['rbbi_session_' .. name](session, at, number))
  end
end

-- Whether the text from one byte to another is white space alone.
function M.is_blank(buffer, from, to)
  return vim.fn.match(text_between(buffer, from, to), '[^[:space:]\\u00a0\\u2000-\\u200b\\u3000]') < 0
end

return M
