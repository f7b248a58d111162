-- Neovim without a screen as a client of `zkc lsp`:
--
--     ZKC=bin/cc nvim --clean --headless -c 'luafile tests/outside/lsp/nvim.lua'
--
-- Neovim 0.7, which Debian has, or later. It shows a fault, mends it by a code action, jumps to a definition, renames, and has a text verified that is not saved. The last line is
-- `N passed, M failed`.
local cc = vim.fn.fnamemodify(vim.env.ZKC or "bin/cc", ":p")
local here = vim.fn.fnamemodify(debug.getinfo(1, "S").source:sub(2), ":p:h")
local passed, failed = 0, 0

local function expect(name, found, wanted)
  if vim.deep_equal(found, wanted) then
    passed = passed + 1
  else
    failed = failed + 1
    io.stdout:write("FAIL " .. name .. ": " .. vim.inspect(found) .. " and not " .. vim.inspect(wanted) .. "\n")
  end
end

local function wait_for(condition)
  return vim.wait(60000, condition, 50)
end

local folder = vim.fn.tempname()
vim.fn.mkdir(folder, "p")
local main = folder .. "/main.c"
vim.fn.writefile({ '{"verifyDelay": 300}' }, folder .. "/zikorape.json")
vim.fn.writefile({ "int twice(int n);" }, folder .. "/twice.h")
vim.fn.writefile({
  '#include "twice.h"',
  "int twice(int n)",
  "{",
  "    return n + n",
  "}",
  "int main(void)",
  "{",
  "    return twice(4);",
  "}",
}, main)

vim.g.zikorape_command = cc
local client = dofile(here .. "/../../../editors/nvim/zikorape.lua")
vim.cmd("edit " .. main)
local buffer = vim.api.nvim_get_current_buf()
client.start(buffer, cc)

local function problems()
  return vim.diagnostic.get(buffer)
end

-- A fault: `}` stands where `;` is missing, on the fifth line.
expect("a fault is shown", wait_for(function() return #problems() == 1 end), true)
local problem = problems()[1] or {}
expect("its line", problem.lnum, 4)
expect("its severity", problem.severity, vim.diagnostic.severity.ERROR)

local function ask(method, params)
  local answers = vim.lsp.buf_request_sync(buffer, method, params, 60000) or {}
  for _, answer in pairs(answers) do
    return answer.result
  end
end

local function client_encoding()
  local clients = (vim.lsp.get_clients or vim.lsp.get_active_clients)({ bufnr = buffer })
  return clients[1] and clients[1].offset_encoding or "utf-16"
end

-- The code action mends it.
local document = { uri = vim.uri_from_bufnr(buffer) }
local place = { line = problem.lnum or 0, character = problem.col or 0 }
local actions = ask("textDocument/codeAction", {
  textDocument = document,
  range = { start = place, ["end"] = place },
  context = { diagnostics = {} },
}) or {}
expect("one code action", #actions, 1)
if actions[1] then
  vim.lsp.util.apply_workspace_edit(actions[1].edit, client_encoding())
end
expect("the mended line", vim.api.nvim_buf_get_lines(buffer, 3, 4, false), { "    return n + n;" })
expect("no fault is left", wait_for(function() return #problems() == 0 end), true)

-- The definition of the name at the cursor.
local targets = ask("textDocument/definition", { textDocument = document, position = { line = 7, character = 12 } }) or {}
expect("one definition", #targets, 1)
if targets[1] then
  vim.lsp.util.jump_to_location(targets[1], client_encoding())
end
expect("the cursor", vim.api.nvim_win_get_cursor(0), { 2, 4 })

-- Renaming, in both files.
local edit = ask("textDocument/rename", { textDocument = document, position = { line = 7, character = 12 }, newName = "double_of" })
if edit then
  vim.lsp.util.apply_workspace_edit(edit, client_encoding())
end
expect("the renamed call", vim.api.nvim_buf_get_lines(buffer, 7, 8, false), { "    return double_of(4);" })
local header = vim.fn.bufadd(folder .. "/twice.h")
vim.fn.bufload(header)
expect("the renamed prototype", vim.api.nvim_buf_get_lines(header, 0, 1, false), { "int double_of(int n);" })

-- A quotient by what is read, which may be zero (C11 6.5.5p5), in a text that is not saved: it is told some time behind the change, and withdrawn by the next one.
local function possible()
  return vim.tbl_filter(function(each)
    return each.severity == vim.diagnostic.severity.INFO
  end, problems())
end

vim.api.nvim_buf_set_lines(buffer, 7, 8, false, { "    return double_of(4) / rv_getbyte();" })
vim.api.nvim_buf_set_lines(buffer, 0, 0, false, { "#include <rvio.h>" })
expect("a possible division by zero is told", wait_for(function() return #possible() == 1 end), true)
expect("the place of the quotient", possible()[1] and { possible()[1].lnum, possible()[1].col }, { 8, 24 })
vim.api.nvim_buf_set_lines(buffer, 8, 9, false, { "    return double_of(4);" })
expect("nothing possible is left", wait_for(function() return #problems() == 0 end), true)

for _, each in ipairs((vim.lsp.get_clients or vim.lsp.get_active_clients)()) do
  each.stop()
end
io.stdout:write(passed .. " passed, " .. failed .. " failed\n")
vim.cmd(failed == 0 and "qall!" or "cquit!")
