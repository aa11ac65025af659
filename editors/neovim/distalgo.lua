-- Copy this file to ~/.config/nvim/plugin/, and name the file dalgo in vim.g.dalgo. It needs Neovim 0.7 or newer.
vim.api.nvim_create_autocmd({ 'BufRead', 'BufNewFile' }, {
  pattern = '*.da',
  callback = function() vim.bo.filetype = 'distalgo' end,
})
-- Neovim 0.7 has no vim.lsp.start: one client for each folder.
local clients = {}
local start = vim.lsp.start or function(config)
  local folder = config.root_dir
  clients[folder] = clients[folder] or vim.lsp.start_client(config)
  vim.lsp.buf_attach_client(0, clients[folder])
end
vim.api.nvim_create_autocmd('FileType', {
  pattern = 'distalgo',
  callback = function(event)
    local folder = vim.fn.fnamemodify(vim.api.nvim_buf_get_name(event.buf), ':p:h')
    start({ name = 'dalgo', cmd = { vim.g.dalgo or 'dalgo', 'lsp' }, root_dir = folder })
  end,
})
-- The calls above main: vim.lsp.codelens.refresh() shows them, and vim.lsp.codelens.run() makes one, in a terminal.
local show = 'set -- "$1" "$2" $("$1" check "$2"); [ "$3" = ok ] || exit 1; '
  .. '{ "$1" walk "$2" 1 200; seq -f "show %.0f" "$5"; } | "$1" replay "$2" /dev/stdin'
local calls = {
  walk = function(dalgo, file) return { dalgo, 'walk', file, '1', '200' } end,
  stuck = function(dalgo, file) return { dalgo, 'hunt', file, '1', '1000', '200', 'stuck' } end,
  show = function(dalgo, file) return { 'sh', '-c', show, 'sh', dalgo, file } end,
}
for name, words in pairs(calls) do
  vim.lsp.commands['distalgo.' .. name] = function(command)
    vim.cmd('botright new')
    vim.fn.termopen(words(vim.g.dalgo or 'dalgo', vim.uri_to_fname(command.arguments[1])))
  end
end
