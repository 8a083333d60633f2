-- The names that keys are mapped to: <Plug>(rbbi-w) and so on. README.md lists them.
local motions = {
  w = { 'word', 'next' }, b = { 'word', 'previous' }, e = { 'word', 'last' },
  [')'] = { 'sentence', 'next' }, ['('] = { 'sentence', 'previous' },
  l = { 'grapheme', 'right' }, h = { 'grapheme', 'left' },
}
local objects = { w = 'word', s = 'sentence', g = 'grapheme' }

for key, motion in pairs(motions) do
  vim.keymap.set({ 'n', 'x', 'o' }, '<Plug>(rbbi-' .. key .. ')', function()
    require('rbbi.motions').move(motion[1], motion[2])
  end, { desc = ('by %s: %s'):format(motion[1], motion[2]) })
end
for key, kind in pairs(objects) do
  for prefix, with_blank in pairs({ a = true, i = false }) do
    vim.keymap.set({ 'x', 'o' }, ('<Plug>(rbbi-%s%s)'):format(prefix, key), function()
      require('rbbi.motions').select(kind, with_blank)
    end, { desc = ('%s %s'):format(prefix == 'a' and 'a' or 'inner', kind) })
  end
end
