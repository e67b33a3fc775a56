-- Runs a script on lua5.4 as the language's page says that a script runs: the main script is a coroutine,
-- and at each yield it is handed the next line of standard input.
--
--     lua5.4 tools/feed.lua FILE < LINES
--
-- It stands outside the project, as a judge: transcripts and expected results are made with it. The script sees the
-- globals of the language alone. The exit status is 0 after a return, 1 after an error, 2 where the source is refused,
-- 3 where the script is suspended and no line is left. Addresses in what `print` and `tostring` write are lua5.4's own.

local library_names = {
  coroutine = "close create isyieldable resume running status wrap yield",
  string = "byte char find format gmatch gsub len lower match rep reverse sub upper",
  table = "concat insert move pack remove sort unpack",
  math = "abs fmod max maxinteger min mininteger tointeger type ult",
  utf8 = "char charpattern codepoint codes len offset",
}
local base_names = "assert collectgarbage error getmetatable ipairs load next pairs pcall print rawequal rawget rawlen "
  .. "rawset select setmetatable tonumber tostring type xpcall _VERSION"

local function picked(from, names)
  local chosen = {}
  for name in names:gmatch("%S+") do
    chosen[name] = from[name]
  end
  return chosen
end

local function globals_of_the_language()
  local globals = picked(_G, base_names)
  for name, names in pairs(library_names) do
    globals[name] = picked(_G[name], names)
  end
  globals._G = globals
  getmetatable("").__index = globals.string
  return globals
end

-- The text of a value in a report: metamethods are not asked, and an object's address is not told.
local function text_of(value)
  local kind = type(value)
  if kind == "string" then
    return value
  elseif kind == "table" or kind == "function" or kind == "thread" then
    return kind .. ": object"
  end
  return tostring(value)
end

local function report(word, ...)
  io.write(word)
  for i = 1, select("#", ...) do
    io.write("\t", text_of((select(i, ...))))
  end
  io.write("\n")
end

local function run(main, ok, ...)
  if not ok then
    coroutine.close(main)
    report("error", ...)
    return 1
  elseif coroutine.status(main) == "dead" then
    report("return", ...)
    return 0
  end
  report("yield", ...)
  local line = io.read("l")
  if not line then
    return 3
  end
  return run(main, coroutine.resume(main, line))
end

local chunk, refusal = loadfile(arg[1], "t", globals_of_the_language())
if not chunk then
  io.stderr:write(refusal, "\n")
  os.exit(2)
end
local main = coroutine.create(chunk)
os.exit(run(main, coroutine.resume(main)), true)
