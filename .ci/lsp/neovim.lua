-- Uses the language server in neovim, set up as docs/editors.md says: nvim --headless -u SETUP -c 'luafile neovim.lua', in a folder where
-- ring.geojson, lines.ndjson and right.geojson are. Status 1 where something is not as it should be.

local function wanted(name, is_right, got)
  if not is_right then
    io.stderr:write("FAILED: " .. name .. ": " .. vim.inspect(got) .. "\n")
    vim.cmd("cquit")
  end
end

local function spots()
  local found = {}
  for _, it in ipairs(vim.diagnostic.get(0)) do
    table.insert(found, string.format("%s %d:%d-%d:%d", it.code or it.user_data.lsp.code, it.lnum, it.col, it.end_lnum, it.end_col))
  end
  table.sort(found)
  return table.concat(found, ", ")
end

-- Waits until the file has these diagnostics.
local function has(name, text)
  vim.wait(15000, function() return #vim.lsp.buf_get_clients(0) > 0 and spots() == text end, 20)
  wanted(name, spots() == text, spots())
end

local function asked(method, params)
  for _, it in pairs(vim.lsp.buf_request_sync(0, method, params, 15000) or {}) do
    return it.result
  end
end

vim.cmd("edit right.geojson")
vim.wait(15000, function() return #vim.lsp.buf_get_clients(0) > 0 end, 20)
wanted("the server runs", #vim.lsp.buf_get_clients(0) == 1, vim.lsp.buf_get_clients(0))

-- neovim counts columns in bytes: a character outside of the BMP stands before the fault.
vim.cmd("edit ring.geojson")
has("the fault", "G15 1:43-1:68")
vim.api.nvim_win_set_cursor(0, { 2, 44 })
local hover = asked("textDocument/hover", vim.lsp.util.make_position_params())
wanted("hover", hover.contents.value:find("### G15: ring not closed", 1, true), hover)

local params = vim.lsp.util.make_range_params()
params.context = { diagnostics = vim.lsp.diagnostic.get_line_diagnostics(0) }
local actions = asked("textDocument/codeAction", params)
wanted("one fix", #actions == 1 and actions[1].title == "Close the ring with its first position", actions)
vim.lsp.util.apply_workspace_edit(actions[1].edit, "utf-16")
has("the fix mends it", "")
wanted("what the fix writes", vim.api.nvim_buf_get_lines(0, 1, 2, true)[1]:find("[0,1],[0,0]]]}", 1, true), vim.api.nvim_buf_get_lines(0, 0, -1, true))

-- As one types.
vim.api.nvim_buf_set_text(0, 0, 0, 0, 1, { "{ ", "🚲" })
has("a fault that is typed", "J1 1:0-1:4")
vim.api.nvim_buf_set_text(0, 0, 1, 1, 4, { "" })
has("and taken back", "")

vim.cmd("edit lines.ndjson")
has("a text in each line", "G4 2:0-2:16, W9 1:36-1:41")
vim.cmd("qall!")
