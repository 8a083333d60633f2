-- Motions and text objects over the segments of a buffer.
local rbbi = require('rbbi')
local api = vim.api
local M = {}

-- The start of the nearest segment that is not blank, in the direction of a step.
local function start_by(step)
  return function(buffer, session, at)
    local from, to = at, at
    repeat
      from = step(session, from)
      to = from and rbbi.following(session, from)
    until not to or not rbbi.is_blank(buffer, from, to)
    return to and from
  end
end

-- The last byte of the first segment that is not blank and ends past the character at a place.
local function next_end(buffer, session, at)
  local past = rbbi.following(rbbi.session(buffer, 'grapheme'), at)
  local to = past and rbbi.following(session, past)
  while to and rbbi.is_blank(buffer, rbbi.preceding(session, to), to) do
    to = rbbi.following(session, to)
  end
  return to and to - 1
end

local moves = {
  next = start_by(rbbi.following),
  previous = start_by(rbbi.preceding),
  last = next_end,
  right = function(_, session, at) return rbbi.following(session, at) end,
  left = function(_, session, at) return rbbi.preceding(session, at) end,
}

local function cursor(buffer)
  local row, column = unpack(api.nvim_win_get_cursor(0))
  return rbbi.offset(buffer, row - 1, column)
end

local function go_to(buffer, at)
  local row, column = rbbi.position(buffer, at)
  api.nvim_win_set_cursor(0, { row + 1, column })
end

-- Moves the cursor by a count of segments of a kind.
function M.move(kind, move)
  local buffer = api.nvim_get_current_buf()
  local session = rbbi.session(buffer, kind)
  local at = cursor(buffer)
  for _ = 1, vim.v.count1 do
    at = moves[move](buffer, session, at) or at
  end
  if move == 'last' and vim.fn.mode(1):sub(1, 2) == 'no' then
    -- An operator takes the last character too.
    vim.cmd('normal! v')
  end
  go_to(buffer, math.min(at, rbbi.length(session) - 1))
end

-- Selects the segment at the cursor: with the blank ones after it, or without its own white space.
function M.select(kind, with_blank)
  local buffer = api.nvim_get_current_buf()
  local session = rbbi.session(buffer, kind)
  local at = cursor(buffer)
  local to = rbbi.following(session, at)
  local from = rbbi.preceding(session, to)
  local after = rbbi.following(session, to)
  while with_blank and after and rbbi.is_blank(buffer, to, after) do
    to, after = after, rbbi.following(session, after)
  end
  local characters = rbbi.session(buffer, 'grapheme')
  local last = rbbi.preceding(characters, to)
  while not with_blank and last > from and rbbi.is_blank(buffer, last, to) do
    last, to = rbbi.preceding(characters, last), last
  end
  if vim.fn.mode():lower() == 'v' then
    vim.cmd('normal! \27')
  end
  go_to(buffer, from)
  vim.cmd('normal! v')
  go_to(buffer, to - 1)
end

return M
