#!/usr/bin/env python3
"""Writes NAME.in or NAME.hex and NAME.out for each case of this folder: the program, and what document 01 says is printed for it.

A plain model of the few instructions that the cases use, written from document 01 (Cycles, Trace, the printing program) and
Intel's manual, apart from the crates. It is no part of the gate, which only compares the stored files.
"""
import os

FETCH, READ, WRITE, POP, PUSH, IN, OUT, HALT, INTERNAL = 1, 2, 3, 4, 5, 6, 7, 9, 11


class Stop(Exception):
    pass


class Chip:
    def __init__(self, program):
        self.memory = bytearray(65536)
        self.memory[:len(program[:4096])] = program[:4096]
        self.r = dict(A=0, B=0, C=0, D=0, E=0, H=0, L=0)
        self.pc, self.sp, self.zero, self.carry = 0, 0, False, False
        self.lines = []

    def state(self, name, kind, address, data):
        if len(self.lines) == 4096:
            raise Stop
        self.lines.append("%d %s %d %04X %02X" % (len(self.lines), name, kind, address, data))

    # a cycle of so many states: address in T1 to T3, data in T3; PC rises in T2 of a fetch and of an operand read
    def cycle(self, kind, address, data, states=3, rises=False):
        self.state("T1", kind, address, 0)
        self.state("T2", kind, address, 0)
        if rises:
            self.pc = (self.pc + 1) % 65536
        self.state("T3", kind, address, data)
        for extra in range(4, states + 1):
            self.state("T%d" % extra, kind, 0, 0)
        return data

    def fetch(self, states):
        return self.cycle(FETCH, self.pc, self.memory[self.pc], states, True)

    def operand(self):
        return self.cycle(READ, self.pc, self.memory[self.pc], 3, True)

    def operands(self):
        low = self.operand()
        return low + 256 * self.operand()

    def read(self, kind, address):
        return self.cycle(kind, address, self.memory[address])

    def write(self, kind, address, data):
        self.cycle(kind, address, data)
        self.memory[address] = data

    def push(self, word):
        self.write(PUSH, (self.sp - 1) % 65536, word // 256)
        self.write(PUSH, (self.sp - 2) % 65536, word % 256)
        self.sp = (self.sp - 2) % 65536

    def pop(self):
        low = self.read(POP, self.sp)
        high = self.read(POP, (self.sp + 1) % 65536)
        self.sp = (self.sp + 2) % 65536
        return low + 256 * high

    def pair(self, high, low):
        return 256 * self.r[high] + self.r[low]

    def set_pair(self, high, low, word):
        self.r[high], self.r[low] = word // 256, word % 256

    def step(self):
        op = self.memory[self.pc]
        if op == 0x08:  # undefined: the fetch's T3 is the last state
            self.fetch(3)
            raise Stop
        five = (0x47, 0xC5, 0xF5, 0xCD, 0xC4, 0xCC, 0xC0, 0xC8)
        self.fetch(5 if op in five else 4)
        if op == 0x00:  # NOP
            pass
        elif op == 0x01:  # LXI B
            self.set_pair("B", "C", self.operands())
        elif op == 0x21:  # LXI H
            self.set_pair("H", "L", self.operands())
        elif op == 0x29:  # DAD H, two internal cycles
            self.cycle(INTERNAL, 0, 0)
            self.cycle(INTERNAL, 0, 0)
            word = 2 * self.pair("H", "L")
            self.carry = word > 65535
            self.set_pair("H", "L", word % 65536)
        elif op == 0x34:  # INR M
            address = self.pair("H", "L")
            byte = (self.read(READ, address) + 1) % 256
            self.write(WRITE, address, byte)
            self.zero = byte == 0
        elif op == 0x36:  # MVI M
            byte = self.operand()
            self.write(WRITE, self.pair("H", "L"), byte)
        elif op == 0x3A:  # LDA
            self.r["A"] = self.read(READ, self.operands())
        elif op == 0x3E:  # MVI A
            self.r["A"] = self.operand()
        elif op == 0x47:  # MOV B,A
            self.r["B"] = self.r["A"]
        elif op == 0x76:  # HLT: a halt acknowledge at PC, then halt states, which are not printed
            self.cycle(HALT, self.pc, 0)
            raise Stop
        elif op == 0xAF:  # XRA A
            self.r["A"], self.zero, self.carry = 0, True, False
        elif op == 0xC1:  # POP B
            self.set_pair("B", "C", self.pop())
        elif op == 0xD1:  # POP D
            self.set_pair("D", "E", self.pop())
        elif op == 0xF1:  # POP PSW
            self.r["A"] = self.pop() // 256
        elif op == 0xC5:  # PUSH B
            self.push(self.pair("B", "C"))
        elif op == 0xF5:  # PUSH PSW, here with the cold machine's flag byte 02
            self.push(256 * self.r["A"] + 0x02)
        elif op == 0xC3:  # JMP
            self.pc = self.operands()
        elif op == 0xC2:  # JNZ
            address = self.operands()
            self.pc = self.pc if self.zero else address
        elif op in (0xCD, 0xC4, 0xCC):  # CALL, CNZ, CZ
            address = self.operands()
            if op == 0xCD or self.zero == (op == 0xCC):
                self.push(self.pc)
                self.pc = address
        elif op in (0xC9, 0xC0, 0xC8):  # RET, RNZ, RZ
            if op == 0xC9 or self.zero == (op == 0xC8):
                self.pc = self.pop()
        elif op == 0xD3:  # OUT
            port = self.operand()
            self.cycle(OUT, 257 * port, self.r["A"])
        elif op == 0xDB:  # IN, from ports that are all 0
            port = self.operand()
            self.r["A"] = self.cycle(IN, 257 * port, 0)
        elif op == 0xE3:  # XTHL: reads SP, SP + 1, then writes H at SP + 1 and L at SP
            low = self.read(POP, self.sp)
            high = self.read(POP, (self.sp + 1) % 65536)
            self.write(PUSH, (self.sp + 1) % 65536, self.r["H"])
            self.cycle(PUSH, self.sp, self.r["L"], 5)
            self.memory[self.sp] = self.r["L"]
            self.r["H"], self.r["L"] = high, low
        else:
            raise ValueError("%02X is not in the model" % op)

    def listing(self):
        try:
            while True:
                self.step()
        except Stop:
            pass
        last = "A %02X PC %04X STATES %d" % (self.r["A"], self.pc, len(self.lines))
        return "".join(line + "\n" for line in self.lines + [last])


LONG = bytes.fromhex("3AFF0F 47 3A0010 76") + bytes(4087) + bytes.fromhex("5A A5 76")
CASES = {
    # nothing: memory of zeros, 1,024 NOPs
    "empty": b"",
    # an undefined opcode first
    "undefined": bytes.fromhex("08 3E01 76"),
    # a jump to itself, cut after 4,096 states in T2 of an operand read
    "endless": bytes.fromhex("C30000"),
    # 4,098 bytes; LDA of byte 4,095 reads 5A, LDA of byte 4,096 does not read A5
    "long": LONG,
    # PUSH at SP 0000, CALL, POP PSW, RET, XTHL
    "stack": bytes.fromhex("013412 C5 3E99 CD1000 E3 D1 76 00000000 F5 C5 C1 F1 C9"),
    # OUT and IN: the port stands in both halves of the address
    "ports": bytes.fromhex("3E5A D310 DB20 76"),
    # with Z set: JNZ, CNZ and RNZ untaken, CZ and RZ taken
    "untaken": bytes.fromhex("AF C22000 C42000 C0 CC1000 76 00000000 C8"),
    # memory write, read and write of INR M, and the internal cycles of DAD
    "internal": bytes.fromhex("210001 36FF 34 29 76"),
}

# pieces of memory, as Intel HEX
HEX = {
    # a jump to hex F000, where A is loaded
    "far": {0x0000: bytes.fromhex("C300F0"), 0xF000: bytes.fromhex("3E05 76")},
}


def record(kind, address, data):
    body = bytes([len(data), address // 256, address % 256, kind]) + data
    return ":%s%02X\r\n" % (body.hex().upper(), -sum(body) % 256)


def main():
    here = os.path.dirname(os.path.abspath(__file__))
    for name, program in CASES.items():
        with open(os.path.join(here, name + ".in"), "wb") as file:
            file.write(program)
        with open(os.path.join(here, name + ".out"), "w") as file:
            file.write(Chip(program).listing())
    for name, pieces in HEX.items():
        chip = Chip(b"")
        for address, data in pieces.items():
            chip.memory[address:address + len(data)] = data
        with open(os.path.join(here, name + ".hex"), "w", newline="") as file:
            file.write("".join(record(0, address, data) for address, data in pieces.items()) + record(1, 0, b""))
        with open(os.path.join(here, name + ".out"), "w") as file:
            file.write(chip.listing())


main()
