-- Neovim's client opens a file of the present folder, makes a fault in it and mends it, and says what it shows.
local function saw(word)
  local list = {}
  for _, d in ipairs(vim.diagnostic.get(0)) do
    list[#list + 1] = string.format("%d:%d-%d %s %s", d.lnum + 1, d.col + 1, d.end_col + 1, d.code or "", d.message)
  end
  io.stdout:write("saw " .. word .. ": " .. table.concat(list, "; ") .. "\n")
end

local function settle(count)
  vim.wait(10000, function() return #vim.diagnostic.get(0) == count end, 20)
end

vim.cmd("edit main.adb")
local client = vim.lsp.start_client({ name = "adals", cmd = { ADALS }, root_dir = vim.fn.getcwd() })
vim.lsp.buf_attach_client(0, client)
vim.wait(10000, function() return vim.lsp.get_client_by_id(client) ~= nil and vim.lsp.get_client_by_id(client).initialized end, 20)
vim.wait(300)
saw("a whole folder")
local text = vim.api.nvim_buf_get_lines(0, 0, -1, false)
vim.api.nvim_buf_set_lines(0, -2, -2, false, { "   Missing; -- é" })
settle(1)
saw("a name that isn't there")
vim.api.nvim_buf_set_lines(0, 0, -1, false, text)
settle(0)
saw("mended")
vim.lsp.stop_client(client)
vim.wait(500)
