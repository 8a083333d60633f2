-- Edits a buffer at random, and after each edit compares each session with a new one over the buffer's
-- text: at random places, from boundary to boundary. Then the motions and text objects, by examples.
--
--     nvim --headless -u NONE -i NONE --cmd 'set rtp^=integrations/neovim' -c 'luafile integrations/neovim/test/edits.lua'
local rbbi = require('rbbi')
local api = vim.api
local EDITS = tonumber(vim.env.EDITS or '2000')
local PIECES = {
  'word', ' ', "can't", '. ', '32.3', '\n', '\n\n', 'é', 'e\204\129', '日本', '👍🏽', '👨‍👩‍👧', 'ไทย', '\r', '!', '\t', 'Mr. ',
  '\255', '\195', '\169', '\240\159',
}
-- How many of them are texts; bytes that are none come in the last quarter of the edits.
local TEXTS = 17
local used = TEXTS
local KINDS = { 'word', 'sentence', 'grapheme', 'line' }
math.randomseed(tonumber(vim.env.SEED or '1'))

local function fail(text)
  io.stderr:write(text .. '\n')
  vim.cmd('cquit 1')
end

local function piece()
  local parts = {}
  for _ = 1, math.random(0, 4) do
    parts[#parts + 1] = PIECES[math.random(used)]
  end
  return vim.split(table.concat(parts), '\n', { plain = true })
end

local function place()
  local row = math.random(0, api.nvim_buf_line_count(0) - 1)
  local line = api.nvim_buf_get_lines(0, row, row + 1, true)[1]
  local column = math.random(0, #line)
  if used == TEXTS and column < #line then
    column = column + vim.str_utf_start(line, column + 1)
  end
  return row, column
end

local edits = {
  function()
    local row, column = place()
    api.nvim_buf_set_text(0, row, column, row, column, piece())
  end,
  function()
    local row, column = place()
    local last, to = place()
    if last < row or last == row and to < column then
      row, column, last, to = last, to, row, column
    end
    if last - row < 4 then
      api.nvim_buf_set_text(0, row, column, last, to, piece())
    end
  end,
  function()
    local row = math.random(0, api.nvim_buf_line_count(0))
    api.nvim_buf_set_lines(0, row, math.min(row + math.random(0, 2), api.nvim_buf_line_count(0)), true, piece())
  end,
  function() vim.cmd('silent! undo') end,
  function() vim.cmd('silent! redo') end,
  function()
    local row, column = place()
    api.nvim_win_set_cursor(0, { row + 1, column })
    local keys = { 'dd', 'yyp', 'x', 'J', 'o-new-\27', 'A.\27', '~', 'ddP', 'dw', '>>', 'g~~', 'dG', 'yyPP' }
    vim.cmd('silent! normal! ' .. keys[math.random(#keys)])
  end,
  function() vim.cmd('silent! %s/o/ö/e') end,
}

local function compare(number)
  local text = rbbi.text(0)
  for _, kind in ipairs(KINDS) do
    local session, new = rbbi.session(0, kind), rbbi.open(text, kind)
    if rbbi.length(session) ~= #text then
      fail(('edit %d, %s: %d bytes and not %d'):format(number, kind, rbbi.length(session), #text))
    end
    local at = math.random(0, #text)
    for _ = 1, 8 do
      local found, wanted = rbbi.following(session, at), rbbi.following(new, at)
      if found ~= wanted or rbbi.preceding(session, at) ~= rbbi.preceding(new, at) then
        fail(('edit %d, %s at %d: %s and not %s'):format(number, kind, at, found, wanted))
      end
      at = found or 0
    end
  end
end

local kept = 0
for number = 1, EDITS do
  used = number * 4 < EDITS * 3 and TEXTS or #PIECES
  local before = rbbi.session(0, 'word')
  edits[math.random(#edits)]()
  if rbbi.session(0, 'word') == before then
    kept = kept + 1
  end
  compare(number)
  if api.nvim_buf_line_count(0) > 60 then
    api.nvim_buf_set_lines(0, 20, -1, true, {})
  end
end
if kept * 2 < EDITS then
  fail(('only %d sessions of %d were kept'):format(kept, EDITS))
end

-- Keys, from a cursor in a buffer: where the cursor comes, or what the line is then.
local passed = 0
local function expect(lines, row, column, keys, wanted)
  vim.cmd('enew!')
  api.nvim_buf_set_lines(0, 0, -1, true, lines)
  api.nvim_win_set_cursor(0, { row, column })
  api.nvim_feedkeys(api.nvim_replace_termcodes(keys, true, false, true), 'xt', false)
  local found = type(wanted) == 'string' and table.concat(api.nvim_buf_get_lines(0, 0, -1, true), '|')
    or api.nvim_win_get_cursor(0)
  if not vim.deep_equal(found, wanted) then
    fail(('%s: %s and not %s'):format(keys, vim.inspect(found), vim.inspect(wanted)))
  end
  passed = passed + 1
end
vim.cmd('set hidden | runtime! plugin/rbbi.lua')
expect({ "I can't go." }, 1, 0, '<Plug>(rbbi-w)', { 1, 2 })
expect({ "I can't go." }, 1, 2, '<Plug>(rbbi-w)', { 1, 8 })
expect({ "I can't go." }, 1, 0, '3<Plug>(rbbi-w)', { 1, 10 })
expect({ "I can't go." }, 1, 10, '2<Plug>(rbbi-b)', { 1, 2 })
expect({ "I can't go." }, 1, 2, '<Plug>(rbbi-e)', { 1, 6 })
expect({ "I can't go." }, 1, 6, '<Plug>(rbbi-e)', { 1, 9 })
expect({ 'one', '  two' }, 1, 0, '<Plug>(rbbi-w)', { 2, 2 })
expect({ 'one', '', 'two' }, 3, 0, '<Plug>(rbbi-b)', { 1, 0 })
expect({ "I can't go." }, 1, 2, 'd<Plug>(rbbi-e)', 'I  go.')
expect({ "I can't go." }, 1, 4, 'd<Plug>(rbbi-iw)', 'I  go.')
expect({ "I can't go." }, 1, 4, 'd<Plug>(rbbi-aw)', 'I go.')
expect({ "I can't go." }, 1, 0, 'd<Plug>(rbbi-w)', "can't go.")
expect({ '3.2 up. Then down. End' }, 1, 9, 'd<Plug>(rbbi-is)', '3.2 up.  End')
expect({ '3.2 up. Then down. End' }, 1, 9, 'd<Plug>(rbbi-as)', '3.2 up. End')
expect({ '3.2 up. Then down. End' }, 1, 0, '<Plug>(rbbi-))', { 1, 8 })
expect({ '3.2 up. Then down. End' }, 1, 19, '2<Plug>(rbbi-()', { 1, 0 })
expect({ 'a👨‍👩‍👧b' }, 1, 1, 'd<Plug>(rbbi-ig)', 'ab')
expect({ 'a👨‍👩‍👧b' }, 1, 0, '2<Plug>(rbbi-l)', { 1, 19 })
expect({ 'a👨‍👩‍👧b' }, 1, 19, '<Plug>(rbbi-h)', { 1, 1 })
expect({ 'a👨‍👩‍👧b c' }, 1, 1, 'v<Plug>(rbbi-l)d', 'a c')
print(('%d edits, %d keys: right\n'):format(EDITS, passed))
vim.cmd('qall!')
