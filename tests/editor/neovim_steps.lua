-- Neovim's client over the present folder: after each step a line of JSON with what it shows of all files, the texts that it has open, and the name
-- that the file GONE has on the disk. ADALS is the server, BODY a body, READ a declaration that many read, GONE a declaration that some read.
local place = GONE
local client

local function name_of(buffer)
  return vim.fn.fnamemodify(vim.api.nvim_buf_get_name(buffer), ":t")
end

local function saw(step)
  -- what the server told before the answer is there before it
  vim.lsp.get_client_by_id(client).request_sync("tests/through", {}, 60000, vim.api.nvim_get_current_buf())
  local list = {}
  for _, d in ipairs(vim.diagnostic.get(nil)) do
    list[#list + 1] = { file = name_of(d.bufnr), line = d.lnum, column = d.col, end_line = d.end_lnum, end_column = d.end_col, code = d.code, severity = d.severity, message = d.message }
  end
  local open = {}
  for _, buffer in ipairs(vim.api.nvim_list_bufs()) do
    if vim.lsp.buf_is_attached(buffer, client) then
      open[name_of(buffer)] = table.concat(vim.api.nvim_buf_get_lines(buffer, 0, -1, false), "\n") .. "\n"
    end
  end
  io.stdout:write("saw " .. vim.fn.json_encode({ step = step, shown = list, open = open, place = place }) .. "\n")
end

local function edit(name)
  vim.cmd("edit " .. name)
  vim.lsp.buf_attach_client(0, client)
end

-- Puts a line before the line of this number, from 0; -1 is behind the last.
local function with_line(step, at, line)
  vim.api.nvim_buf_set_lines(0, at, at, false, { line })
  saw(step .. " gets a fault")
  vim.cmd("silent undo")
  saw(step .. " is mended")
end

-- Gives the file GONE another name; the server reads the folder again as a file is saved.
local function move(step, to)
  os.rename(place, to)
  place = to
  vim.cmd("silent write!")
  saw(step)
end

vim.cmd("edit " .. BODY)
client = vim.lsp.start_client({ name = "adals", cmd = { ADALS }, root_dir = vim.fn.getcwd() })
vim.lsp.buf_attach_client(0, client)
vim.wait(60000, function() return (vim.lsp.get_client_by_id(client) or {}).initialized end, 20)
saw("a whole folder")
with_line("a body", 4, "      Missing := 1; -- é𝄞")
with_line("a body, in its syntax", 4, "      if := ;")
with_line("a context clause", 0, "with Nonexist;")
edit(READ)
with_line("a declaration", 1, "   More : Missing;")
with_line("a declaration that many read, in its syntax", 1, "   More : ;")
vim.cmd("silent %s/Step/Stop/g")
saw("a name goes that many read")
vim.cmd("silent undo")
saw("it is back")
move("a file is renamed, so that it is no source", GONE .. ".old")
move("it has another source's name", "renamed.ads")
move("it has its own name again", GONE)
vim.cmd("buffer " .. BODY)
vim.api.nvim_buf_set_lines(0, 4, 4, false, { "      Missing := 1;" })
saw("a fault that isn't saved")
vim.cmd("silent bdelete!")
saw("its file is closed")
edit(BODY)
saw("it is open again")
vim.lsp.stop_client(client)
vim.wait(500)
