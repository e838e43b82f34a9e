// tz FOLDER FROM TO: carries a packet over the tables 0.table, 1.table, .. of FOLDER, and prints its way.
// It prints that as `tznode route` does, without the length.
// tz FOLDER ROUTES: takes the way of each line `FROM TO` and what `tznode route` prints of this pair, and compares the two.
// Built by plain rustc: rustc -O --edition 2021 -L FOLDER_OF_THE_ARCHIVE tz.rs
use std::fmt::Write;
use std::{env, error, fmt, fs, process};

/// The library of include/tz.h, and safe calls of it.
pub mod tz {
    use super::{error, fmt};

    pub const ADDRESS_LENGTH: usize = 42;
    pub const PACKET_LENGTH: usize = 43;
    pub type Address = [u8; ADDRESS_LENGTH];
    pub type Packet = [u8; PACKET_LENGTH];

    /// What a table's head and counts say.
    #[repr(C)]
    #[derive(Clone, Copy, Debug, Default)]
    pub struct Info {
        pub generation: u64,
        pub nodes: u32,
        pub node: u32,
        pub ports: u32,
        pub entries: u32,
        pub members: u32,
    }

    #[link(name = "tz", kind = "static")]
    extern "C" {
        fn tz_table_check(table: *const u8, table_len: usize) -> i32;
        fn tz_table_info(table: *const u8, table_len: usize, info: *mut Info) -> i32;
        fn tz_neighbour(table: *const u8, table_len: usize, port: u32, node: *mut u32) -> i32;
        fn tz_address(table: *const u8, table_len: usize, address: *mut u8, address_len: usize) -> i32;
        fn tz_launch(table: *const u8, table_len: usize, address: *const u8, address_len: usize, packet: *mut u8, packet_len: usize)
            -> i32;
        fn tz_hop(
            table: *const u8,
            table_len: usize,
            packet_in: *const u8,
            in_len: usize,
            packet_out: *mut u8,
            out_len: usize,
            port: *mut u32,
            next: *mut u32,
        ) -> i32;
    }

    /// A refusal, by its number in docs/FORMATS.md.
    #[derive(Clone, Copy, Debug, PartialEq, Eq)]
    pub struct Refused(pub i32);

    /// No way leads to the destination.
    pub const UNREACHABLE: Refused = Refused(8);

    impl fmt::Display for Refused {
        fn fmt(&self, to: &mut fmt::Formatter) -> fmt::Result {
            write!(to, "refusal {} of tz.h", self.0)
        }
    }

    impl error::Error for Refused {}

    fn answered(answer: i32) -> Result<i32, Refused> {
        if answer < 0 { Err(Refused(-answer)) } else { Ok(answer) }
    }

    /// What a node does with a packet.
    #[derive(Clone, Copy, Debug)]
    pub enum Move {
        Arrived,
        Forward { port: u32, next: u32, packet: Packet },
    }

    /// A node's table, tested once, when it is made. Each call below reads the bytes, writes values of its own alone, and keeps nothing.
    #[derive(Clone, Copy)]
    pub struct Table<'a>(&'a [u8]);

    impl<'a> Table<'a> {
        pub fn new(bytes: &'a [u8]) -> Result<Table<'a>, Refused> {
            // SAFETY: pointers and lengths are those of slices and locals that live through the call; what it writes overlaps nothing. So
            // too below.
            answered(unsafe { tz_table_check(bytes.as_ptr(), bytes.len()) }).map(|_| Table(bytes))
        }

        pub fn info(&self) -> Result<Info, Refused> {
            let mut info = Info::default();
            answered(unsafe { tz_table_info(self.0.as_ptr(), self.0.len(), &mut info) }).map(|_| info)
        }

        pub fn neighbour(&self, port: u32) -> Result<u32, Refused> {
            let mut node = 0;
            answered(unsafe { tz_neighbour(self.0.as_ptr(), self.0.len(), port, &mut node) }).map(|_| node)
        }

        pub fn address(&self) -> Result<Address, Refused> {
            let mut address = [0; ADDRESS_LENGTH];
            answered(unsafe { tz_address(self.0.as_ptr(), self.0.len(), address.as_mut_ptr(), address.len()) }).map(|_| address)
        }

        pub fn launch(&self, address: &[u8]) -> Result<Packet, Refused> {
            let mut packet = [0; PACKET_LENGTH];
            let answer = unsafe {
                tz_launch(self.0.as_ptr(), self.0.len(), address.as_ptr(), address.len(), packet.as_mut_ptr(), packet.len())
            };
            answered(answer).map(|_| packet)
        }

        pub fn hop(&self, packet: &[u8]) -> Result<Move, Refused> {
            let (mut sent, mut port, mut next) = ([0; PACKET_LENGTH], 0, 0);
            let answer = unsafe {
                tz_hop(self.0.as_ptr(), self.0.len(), packet.as_ptr(), packet.len(), sent.as_mut_ptr(), sent.len(), &mut port, &mut next)
            };
            answered(answer).map(|moved| if moved == 0 { Move::Arrived } else { Move::Forward { port, next, packet: sent } })
        }
    }
}

type Failed = Box<dyn error::Error>;

// The bytes of the tables of all nodes, in order.
fn load(folder: &str) -> Result<Vec<Vec<u8>>, Failed> {
    let first = fs::read(format!("{folder}/0.table"))?;
    let nodes = tz::Table::new(&first)?.info()?.nodes;
    (0..nodes).map(|node| Ok(fs::read(format!("{folder}/{node}.table"))?)).collect()
}

// A packet's way, as `tznode route` prints it, without the length.
fn way(tables: &[tz::Table], from: usize, to: usize) -> Result<String, Failed> {
    let (mut at, to) = (tables.get(from).ok_or("no such node")?, tables.get(to).ok_or("no such node")?);
    let mut way = format!("generation={}", at.info()?.generation);
    let mut packet = match at.launch(&to.address()?) {
        Err(tz::UNREACHABLE) => return Ok(way + " unreachable"),
        launched => launched?,
    };
    write!(way, " route {from}")?;
    while let tz::Move::Forward { next, packet: sent, .. } = at.hop(&packet)? {
        packet = sent;
        at = tables.get(next as usize).ok_or("no such node")?;
        write!(way, " {next}")?;
    }
    Ok(way)
}

fn compare(tables: &[tz::Table], routes: &str) -> Result<bool, Failed> {
    let (mut lines, mut wrong) = (0, 0);
    for line in fs::read_to_string(routes)?.lines() {
        let words: Vec<&str> = line.splitn(3, ' ').collect();
        let [from, to, expected] = words[..] else { return Err("a line begins with no pair of nodes".into()) };
        let got = way(tables, from.parse()?, to.parse()?)?;
        lines += 1;
        if Some(got.as_str()) != expected.split(" length ").next() {
            println!("differs: {line}: {got}");
            wrong += 1;
        }
    }
    println!("ways={lines} different={wrong}");
    Ok(lines > 0 && wrong == 0)
}

fn run(words: &[&str]) -> Result<bool, Failed> {
    let [folder, rest @ ..] = words else { return Err("usage: tz FOLDER FROM TO, or tz FOLDER ROUTES".into()) };
    let bytes = load(folder)?;
    let tables = bytes.iter().map(|table| tz::Table::new(table)).collect::<Result<Vec<_>, _>>()?;
    match rest {
        [routes] => compare(&tables, routes),
        [from, to] => {
            println!("{}", way(&tables, from.parse()?, to.parse()?)?);
            Ok(true)
        }
        _ => Err("usage: tz FOLDER FROM TO, or tz FOLDER ROUTES".into()),
    }
}

fn main() {
    let words: Vec<String> = env::args().skip(1).collect();
    let words: Vec<&str> = words.iter().map(String::as_str).collect();
    match run(&words) {
        Ok(true) => {}
        Ok(false) => process::exit(1),
        Err(failed) => {
            eprintln!("tz: {failed}");
            process::exit(1);
        }
    }
}
