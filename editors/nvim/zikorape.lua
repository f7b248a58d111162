-- Neovim 0.7 or later: put this file into ~/.config/nvim/plugin/. It starts `zkc lsp` for C files of a folder that has a file zikorape.json,
-- whose members are the options of the server, and of this file verifyDelay:
-- {"main": "src/main.c", "include": ["include"], "define": ["NAME=1"], "undefine": [], "stack": 1048576, "verify": true, "verifyDelay": 800}.
local M = {}

-- After how many milliseconds without a change a buffer is verified, where zikorape.json does not say.
local USUAL_DELAY = 800

local function read_options(path)
  local file = io.open(path, "r")
  if not file then
    return nil
  end
  local text = file:read("*a")
  file:close()
  local is_json, options = pcall(vim.json.decode, text)
  return is_json and options or {}
end

local function find_root(path)
  local folder = vim.fn.fnamemodify(path, ":p:h")
  while true do
    if vim.fn.filereadable(folder .. "/zikorape.json") == 1 then
      return folder
    end
    local above = vim.fn.fnamemodify(folder, ":h")
    if above == folder then
      return nil
    end
    folder = above
  end
end

local function delay_of(options)
  if type(options) ~= "table" or options.verify == false then
    return 0
  end
  return tonumber(options.verifyDelay) or USUAL_DELAY
end

-- Asks the server to verify a buffer as it stands.
local function verify(id, buffer)
  local client = vim.lsp.get_client_by_id(id)
  if not client or not vim.api.nvim_buf_is_loaded(buffer) then
    return
  end
  local params = { command = "zikorape.verify", arguments = { vim.uri_from_bufnr(buffer) } }
  local function answered() end
  if vim.fn.has("nvim-0.11") == 1 then
    client:request("workspace/executeCommand", params, answered, buffer)
  else
    client.request("workspace/executeCommand", params, answered, buffer)
  end
end

-- Has a buffer verified whenever it has not changed for `delay` milliseconds. A save ends the time, since the server verifies then.
local function verify_behind_changes(id, buffer, delay)
  local timer = vim.loop.new_timer()
  vim.api.nvim_buf_attach(buffer, false, {
    on_lines = function()
      if not vim.lsp.get_client_by_id(id) then
        timer:stop()
        return true
      end
      timer:start(delay, 0, vim.schedule_wrap(function()
        verify(id, buffer)
      end))
    end,
    on_detach = function()
      timer:stop()
    end,
  })
  vim.api.nvim_create_autocmd("BufWritePost", {
    buffer = buffer,
    callback = function()
      timer:stop()
    end,
  })
end

-- Starts the server for a buffer, or joins the one that runs for its folder. `command` is the path of zkc.
function M.start(buffer, command)
  local root = find_root(vim.api.nvim_buf_get_name(buffer))
  if not root then
    return
  end
  local options = read_options(root .. "/zikorape.json")
  local delay = delay_of(options)
  local config = {
    name = "zikorape",
    cmd = { command or vim.g.zikorape_command or "zkc", "lsp" },
    root_dir = root,
    init_options = options,
    on_attach = function(client, attached)
      if delay > 0 then
        verify_behind_changes(client.id, attached, delay)
      end
    end,
  }
  if vim.lsp.start then
    vim.lsp.start(config, { bufnr = buffer })
    return
  end
  M.clients = M.clients or {}
  M.clients[root] = M.clients[root] or vim.lsp.start_client(config)
  vim.lsp.buf_attach_client(buffer, M.clients[root])
end

vim.api.nvim_create_autocmd("FileType", {
  pattern = { "c", "cpp" },
  callback = function(event)
    M.start(event.buf)
  end,
})

return M
