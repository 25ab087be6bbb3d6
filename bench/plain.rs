#![allow(dead_code)]
//! The plain machine in Rust: the same table, the same checks at each step, and the same checksum as the crate `bench`.
use std::env;
use std::io::Read;

#[derive(Clone, Copy)]
enum Kind {
    Source,
    Translated,
}

#[derive(Clone, Copy)]
enum Place {
    Source(u16),
    Translated(u16),
}

#[derive(Clone, Copy)]
enum Way {
    Next,
    Aside,
}

#[derive(Clone, Copy)]
enum Instruction {
    Set { register: u8, constant: u8 },
    Move { into: u8, from: u8 },
    Add { into: u8, from: u8 },
    Inc { register: u8, constant: u8 },
    Jump { target: u16 },
    IfEq { register: u8, constant: u8, target: u16 },
    IfLt { left: u8, right: u8, target: u16 },
    Pick { target: u16 },
    Wait { left: u8, right: u8 },
    Load { register: u8, word: u8 },
    Store { word: u8, register: u8 },
    Fence,
    Arw { word: u8, expected: u8, new: u8 },
    Open { register: u8, limit: u8 },
    Shut { target: u16 },
    Call { target: u16 },
    Back,
}


enum MachineFault {
    NoThread { thread: u8 },
    Ended { place: Place },
    NoWay { place: Place },
    NotGranted { place: Place },
}

struct Table<'a> {
    bytes: &'a [u8],
}

impl<'a> Table<'a> {
    /// Checks the bytes as the format says.
    fn read(bytes: &'a [u8]) -> Option<Table<'a>> {
        let table = Table { bytes };
        if bytes.len() < 6 || bytes[0] != 1 || bytes[1] > 1 || !(1..=4).contains(&bytes[2]) || !(1..=8).contains(&bytes[3]) {
            return None;
        }
        let (registers, rounds, instructions) = match table.kind() {
            Kind::Source => (1..=16, 0..=0, 1..=48),
            Kind::Translated => (1..=82, 1..=4, 1..=1400),
        };
        if !registers.contains(&bytes[4]) || !rounds.contains(&bytes[5]) || bytes.len() < 6 + 4 * bytes[2] as usize {
            return None;
        }
        let mut end = 6 + 4 * bytes[2] as usize;
        for thread in 0..bytes[2] as usize {
            let (position, count) = (table.pair(6 + 4 * thread), table.pair(8 + 4 * thread));
            if position as usize != end || !instructions.contains(&count) {
                return None;
            }
            end += 6 * count as usize;
        }
        if end != bytes.len() { None } else { Some(table) }
    }

    fn pair(&self, at: usize) -> u16 {
        u16::from_le_bytes([self.bytes[at], self.bytes[at + 1]])
    }

    fn kind(&self) -> Kind {
        if self.bytes[1] == 0 { Kind::Source } else { Kind::Translated }
    }

    fn threads(&self) -> u8 {
        self.bytes[2]
    }

    fn place(&self, place: u16) -> Place {
        match self.kind() {
            Kind::Source => Place::Source(place),
            Kind::Translated => Place::Translated(place),
        }
    }

    fn instruction(&self, thread: u8, place: u16) -> Option<Instruction> {
        let entry = 6 + 4 * thread as usize;
        if thread >= self.threads() || place >= self.pair(entry + 2) {
            return None;
        }
        let at = self.pair(entry) as usize + 6 * place as usize;
        let [op, p, q, r, low, high] = *self.bytes[at..].first_chunk::<6>()?;
        let target = u16::from_le_bytes([low, high]);
        Some(match op {
            0 => Instruction::Set { register: p, constant: r },
            1 => Instruction::Move { into: p, from: q },
            2 => Instruction::Add { into: p, from: q },
            3 => Instruction::Inc { register: p, constant: r },
            4 => Instruction::Jump { target },
            5 => Instruction::IfEq { register: p, constant: r, target },
            6 => Instruction::IfLt { left: p, right: q, target },
            7 => Instruction::Pick { target },
            8 => Instruction::Wait { left: p, right: q },
            9 => Instruction::Load { register: p, word: q },
            10 => Instruction::Store { word: p, register: q },
            11 => Instruction::Fence,
            12 => Instruction::Arw { word: p, expected: q, new: r },
            13 => Instruction::Open { register: p, limit: r },
            14 => Instruction::Shut { target },
            15 => Instruction::Call { target },
            _ => Instruction::Back,
        })
    }
}

#[derive(Clone, Copy)]
struct Thread {
    place: u16,
    link: u16,
    registers: [u8; 82],
}

impl Thread {
    fn register(&self, r: u8) -> u8 {
        self.registers[r as usize]
    }

    fn go_on(&mut self) {
        self.place += 1;
    }

    fn take(&mut self, r: u8, value: u8) {
        self.registers[r as usize] = value;
        self.place += 1;
    }

    fn branch(&mut self, test: bool, target: u16) {
        if test {
            self.place = target;
        } else {
            self.place += 1;
        }
    }
}

struct State {
    words: [u8; 8],
    threads: [Thread; 4],
    holder: Option<u8>,
}

impl State {
    fn act(&mut self, t: u8, instruction: Instruction) -> bool {
        let thread = &mut self.threads[t as usize];
        match instruction {
            Instruction::Set { register, constant } => thread.take(register, constant),
            Instruction::Move { into, from } => thread.take(into, thread.register(from)),
            Instruction::Add { into, from } => {
                thread.take(into, thread.register(into).wrapping_add(thread.register(from)))
            }
            Instruction::Inc { register, constant } => {
                thread.take(register, thread.register(register).wrapping_add(constant))
            }
            Instruction::Jump { target } => thread.place = target,
            Instruction::IfEq { register, constant, target } => {
                thread.branch(thread.register(register) == constant, target)
            }
            Instruction::IfLt { left, right, target } => {
                thread.branch(thread.register(left) < thread.register(right), target)
            }
            Instruction::Pick { .. } | Instruction::Fence => thread.go_on(),
            Instruction::Wait { left, right } => {
                if thread.register(left) != thread.register(right) {
                    return false;
                }
                thread.go_on()
            }
            Instruction::Load { register, word } => thread.take(register, self.words[word as usize]),
            Instruction::Store { word, register } => {
                self.words[word as usize] = thread.register(register);
                thread.go_on()
            }
            Instruction::Arw { word, expected, new } => {
                if self.words[word as usize] != thread.register(expected) {
                    return false;
                }
                self.words[word as usize] = thread.register(new);
                thread.go_on()
            }
            Instruction::Open { register, limit } => {
                let value = thread.register(register);
                if value >= limit || self.holder.is_some() {
                    return false;
                }
                thread.take(register, value + 1);
                self.holder = Some(t)
            }
            Instruction::Shut { target } => {
                if self.holder != Some(t) {
                    return false;
                }
                thread.place = target;
                self.holder = None
            }
            Instruction::Call { target } => {
                thread.link = thread.place + 1;
                thread.place = target
            }
            Instruction::Back => thread.place = thread.link,
        }
        true
    }

    fn attempt(&mut self, t: u8, instruction: Instruction, way: Way) -> bool {
        if self.holder.is_some_and(|other| other != t) {
            return false;
        }
        match (way, instruction) {
            (Way::Next, _) => self.act(t, instruction),
            (Way::Aside, Instruction::Pick { target }) => {
                self.threads[t as usize].place = target;
                true
            }
            (Way::Aside, _) => false,
        }
    }
}

struct Run<'a> {
    table: Table<'a>,
    state: State,
}

impl<'a> Run<'a> {
    fn of(table: Table<'a>) -> Run<'a> {
        let thread = Thread { place: 0, link: 0, registers: [0; 82] };
        let state = State { words: [0; 8], threads: [thread; 4], holder: None };
        Run { table, state }
    }

    fn step(&mut self, thread: u8, way: u8) -> Result<(), MachineFault> {
        if thread >= self.table.threads() {
            return Err(MachineFault::NoThread { thread });
        }
        let at = self.state.threads[thread as usize].place;
        let Some(instruction) = self.table.instruction(thread, at) else {
            return Err(MachineFault::Ended { place: self.table.place(at) });
        };
        let way = match (way, instruction) {
            (0, _) => Way::Next,
            (1, Instruction::Pick { .. }) => Way::Aside,
            _ => return Err(MachineFault::NoWay { place: self.table.place(at) }),
        };
        if self.state.attempt(thread, instruction, way) {
            Ok(())
        } else {
            Err(MachineFault::NotGranted { place: self.table.place(at) })
        }
    }

    fn word(&self, x: u8) -> u8 {
        if x < self.table.bytes[3] { self.state.words[x as usize] } else { 0 }
    }

    fn register(&self, thread: u8, r: u8) -> u8 {
        if r < self.table.bytes[4] { self.state.threads[thread as usize].register(r) } else { 0 }
    }
}

fn mixed(sum: u64, byte: u8) -> u64 {
    sum.wrapping_mul(31).wrapping_add(byte as u64)
}

fn checksum(run: &Run) -> u64 {
    let mut sum = 0;
    for i in 0..82 {
        sum = mixed(sum, run.word(i));
        sum = mixed(sum, run.register(0, i));
        sum = mixed(sum, run.register(1, i));
    }
    sum
}

fn turns(table: Table, count: u64) -> Option<u64> {
    let mut run = Run::of(table);
    for turn in 0..count {
        if run.step((turn % 2) as u8, 0).is_err() {
            return None;
        }
    }
    Some(checksum(&run))
}

fn main() {
    let count = env::args().nth(1).expect("a count of steps").parse().expect("a number");
    let mut bytes = Vec::new();
    std::io::stdin().read_to_end(&mut bytes).expect("a table");
    let table = Table::read(&bytes).expect("a table");
    println!("{}", turns(table, count).expect("no step is refused"));
}
