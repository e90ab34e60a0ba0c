-- MAME's side of tests/mame/run: stretches of random instructions, written to the file `trace`.
--
-- A stretch starts from one of ten random memories (image-0 to image-9) with random registers and takes 2,000 cycles. In the
-- trace it has a line "stretch IMAGE"; a line with the registers, INTE and the cycles so far before each instruction; and after
-- that a line "write ADDRESS BYTE" or "out PORT BYTE" for each byte that the instruction writes.

local RAM = 0xFD00 -- From here on the machine has ROM, or nothing.
local stretches = tonumber(os.getenv("STRETCHES"))

local cpu = manager.machine.devices[":maincpu"]

local function command(text)
  manager.machine.debugger:command(text)
end

-- No undefined opcode, and HLT four times less often than each of the others.
local function random_opcode()
  local byte = math.random(0, 255)
  local undefined = byte ~= 0 and byte & 0xC7 == 0 or byte == 0xCB or byte == 0xD9 or byte & 0xCF == 0xCD and byte ~= 0xCD
  if undefined or byte == 0x76 and math.random(4) > 1 then
    return random_opcode()
  end
  return byte
end

local function write_image(number)
  local bytes = {}
  for i = 1, RAM do
    bytes[i] = string.char(random_opcode())
  end
  local file = assert(io.open("image-" .. number, "wb"))
  file:write(table.concat(bytes))
  file:close()
end

local function trace()
  command('trace trace,maincpu,noloop,{tracelog "%04X %04X %04X %04X %04X %04X %X %d;",pc,af,bc,de,hl,sp,inte,totalcycles}')
  command('wpset 0,10000,w,1,{tracelog "write %04X %02X\\n",wpaddr,wpdata; go}')
  command('wpiset 0,100,w,1,{tracelog "out %02X %02X\\n",wpaddr,wpdata; go}')
end

local function stretch(image)
  command('load image-' .. image .. ',0,' .. string.format("%X", RAM))
  for _, pair in ipairs({ "BC", "DE", "HL", "SP" }) do
    cpu.state[pair].value = math.random(0, 0xFFFF)
  end
  cpu.state["AF"].value = math.random(0, 0xFFFF) & 0xFFD7 | 2
  cpu.state["PC"].value = math.random(0, RAM - 1)
  command('tracelog "stretch %d\\n",' .. image)
  emu.wait(0.001)
end

local function all()
  math.randomseed(8080)
  for image = 0, 9 do
    write_image(image)
  end
  trace()
  for number = 1, stretches do
    stretch(number % 10)
  end
  command("trace off,maincpu")
  os.exit(0) -- Not by machine:exit: MAME often crashes while it closes.
end

coroutine.wrap(all)()
