//! The machine record of document 01, "The machine".

/// What comes next. T1 of cycle 1 is always `Fetch`, an acknowledge's T1 too.
#[derive(Clone, Copy, Debug, PartialEq, Eq)]
pub enum Next {
    Fetch,
    Later { cycle: u8, state: u8 },
    Wait { cycle: u8 },
    Hold { cycle: u8 },
    Halt,
    Stop,
}

/// Whether an interrupt is being acknowledged, and what it interrupted.
#[derive(Clone, Copy, Debug, PartialEq, Eq)]
pub enum Acknowledge {
    None,
    Running,
    Halted,
}

/// The level of the line INT that means down; 0 to 7 are up, with that restart number.
pub const INT_DOWN: u8 = 8;

/// Everything that a machine keeps from one state to the next.
#[derive(Clone, Copy, Debug, PartialEq, Eq)]
pub struct Machine {
    pub a: u8,
    pub flags: u8,
    pub b: u8,
    pub c: u8,
    pub d: u8,
    pub e: u8,
    pub h: u8,
    pub l: u8,
    pub sp: u16,
    pub pc: u16,
    pub inte: bool,
    pub clock: u32,
    pub ready: u8,
    pub hold: u8,
    pub int: u8,
    pub next: Next,
    pub opcode: u8,
    pub acknowledge: Acknowledge,
    pub restart: u8,
    /// The bytes that cycles 2 to 5 have read.
    pub kept: [u8; 4],
}

impl Machine {
    /// A machine as it is switched on.
    pub fn cold() -> Machine {
        Machine {
            a: 0,
            flags: 0x02,
            b: 0,
            c: 0,
            d: 0,
            e: 0,
            h: 0,
            l: 0,
            sp: 0,
            pc: 0,
            inte: false,
            clock: 0,
            ready: 1,
            hold: 0,
            int: INT_DOWN,
            next: Next::Fetch,
            opcode: 0,
            acknowledge: Acknowledge::None,
            restart: 0,
            kept: [0; 4],
        }
    }

    /// The pair B, C.
    pub fn bc(&self) -> u16 {
        u16::from_be_bytes([self.b, self.c])
    }

    /// The pair D, E.
    pub fn de(&self) -> u16 {
        u16::from_be_bytes([self.d, self.e])
    }

    /// The pair H, L.
    pub fn hl(&self) -> u16 {
        u16::from_be_bytes([self.h, self.l])
    }

    /// The address or word that cycles 2 and 3 read, low byte first.
    pub fn word(&self) -> u16 {
        u16::from_le_bytes([self.kept[0], self.kept[1]])
    }

    /// The register with this number among B, C, D, E, H, L, M, A, where M is the byte that cycle 2 read.
    pub fn register(&self, number: u8) -> u8 {
        match number & 7 {
            0 => self.b,
            1 => self.c,
            2 => self.d,
            3 => self.e,
            4 => self.h,
            5 => self.l,
            6 => self.kept[0],
            _ => self.a,
        }
    }

    /// Sets the register with this number; M is written by a cycle and not here.
    pub fn set_register(&mut self, number: u8, byte: u8) {
        match number & 7 {
            0 => self.b = byte,
            1 => self.c = byte,
            2 => self.d = byte,
            3 => self.e = byte,
            4 => self.h = byte,
            5 => self.l = byte,
            6 => {}
            _ => self.a = byte,
        }
    }

    /// Forgets what was kept inside the instruction that has ended.
    pub fn forget(&mut self) {
        self.opcode = 0;
        self.acknowledge = Acknowledge::None;
        self.restart = 0;
        self.kept = [0; 4];
    }
}
