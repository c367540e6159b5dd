//! Two hosts of one world: a lead and a standby, each with its cache and its copy of hot records,
//! and the world as a file of records.
//!
//!     cargo run --release --example host [SEED [STEPS [FOLDER]]]
//!
//! The hosts play at random: records are created, changed, read for a while, pinned and discarded,
//! messages are sent and taken, the world moves from one host to the other, and now and then the lead is
//! lost. A change is asked of both hosts, and done at both once both say yes; where one would refuse it,
//! what helps is done and both are asked again. After every step each record of the world is looked
//! for: it is in the file as it should be, or it is dirty in the memory of both hosts.

use speldervacht::{
    ask, message_bytes, open, order_words, report, step, table_words, write_message, Decrease, Flash, Increase, Mode,
    OrderKind, Refusal, Request, Settings,
};
use std::collections::{BTreeMap, BTreeSet, VecDeque};
use std::error::Error;
use std::fs::{File, OpenOptions};
use std::os::unix::fs::FileExt;
use std::path::PathBuf;

const LEAD: usize = 0;
const STANDBY: usize = 1;

const ROWS: usize = 24;
const THRESHOLD: u64 = 4_096;
/// Places in the world's file, and the bytes of each.
const SLOTS: u64 = 96;
const SLOT_BYTES: u64 = 1_024;
/// Pins and readers of one host.
const MOST_PINS: usize = 4;
const MOST_READERS: usize = 4;

fn settings(mode: Mode) -> Settings {
    Settings {
        initial_size: Some(8_192),
        maximum_size: 16_384,
        minimum_size: 4_096,
        epoch_length: 100,
        increase: Increase::Threshold { lower: 0.5, multiplier: 1.5 },
        increase_cap: None,
        flash: Flash::On { multiple: 1.0, threshold: 0.1 },
        decrease: Decrease::AgeOutWithThreshold { upper: 0.6, epochs: 2, reserve: 0.1 },
        ..Settings::defaults(mode)
    }
}

// ---- the world

/// Records by address, which is a place in the file.
struct World {
    file: File,
}

impl World {
    fn read(&self, address: u64, size: u64) -> std::io::Result<Vec<u8>> {
        let mut record = vec![0; size as usize];
        self.file.read_exact_at(&mut record, address * SLOT_BYTES)?;
        Ok(record)
    }

    fn write(&self, address: u64, record: &[u8]) -> std::io::Result<()> {
        self.file.write_all_at(record, address * SLOT_BYTES)
    }
}

// ---- a host

struct Host {
    name: &'static str,
    table: Vec<u64>,
    orders: Vec<u64>,
    /// The records that the cache has, and which of them are dirty or pinned.
    memory: BTreeMap<u64, Vec<u8>>,
    dirty: BTreeSet<u64>,
    pinned: BTreeSet<u64>,
    /// The address that each reader holds, the longest reader first, and the one held for writing.
    readers: VecDeque<u64>,
    written: Option<u64>,
    writes: u64,
    loads: u64,
    evictions: u64,
}

impl Host {
    fn new(name: &'static str, mode: Mode) -> Result<Host, Refusal> {
        let mut host = Host {
            name,
            table: vec![0; table_words(ROWS)],
            orders: vec![0; order_words(ROWS)],
            memory: BTreeMap::new(),
            dirty: BTreeSet::new(),
            pinned: BTreeSet::new(),
            readers: VecDeque::new(),
            written: None,
            writes: 0,
            loads: 0,
            evictions: 0,
        };
        host.open(mode)?;
        Ok(host)
    }

    /// A fresh cache, and nothing in memory.
    fn open(&mut self, mode: Mode) -> Result<(), Refusal> {
        self.memory.clear();
        self.dirty.clear();
        self.pinned.clear();
        self.readers.clear();
        self.written = None;
        open(&mut self.table, ROWS, mode, THRESHOLD, &settings(mode))
    }

    /// What a request would be answered.
    fn told(&self, request: &Request) -> Result<(), Refusal> {
        ask(&self.table, self.orders.len(), request)
    }

    /// Does a request and carries out its orders. The addresses written are the answer.
    fn step(&mut self, world: &World, request: &Request) -> Result<Vec<u64>, Box<dyn Error>> {
        let mut written = Vec::new();
        for order in step(&mut self.table, &mut self.orders, request)? {
            match order.kind {
                OrderKind::Write => {
                    let record = &self.memory[&order.address];
                    assert_eq!(record.len() as u64, order.size, "{}: {order}", self.name);
                    world.write(order.address, record)?;
                    self.dirty.remove(&order.address);
                    self.writes += 1;
                    written.push(order.address);
                }
                OrderKind::Evict => {
                    self.memory.remove(&order.address);
                    self.evictions += 1;
                }
                OrderKind::Load => {
                    self.memory.insert(order.address, world.read(order.address, order.size)?);
                    self.loads += 1;
                }
            }
        }
        Ok(written)
    }

    /// A reader of the address goes.
    fn release(&mut self, world: &World, address: u64) -> Result<(), Box<dyn Error>> {
        self.step(world, &Request::ReleaseUnchanged { address })?;
        let place = self.readers.iter().position(|reader| *reader == address).ok_or("nobody reads it")?;
        self.readers.remove(place);
        Ok(())
    }

    fn unpin(&mut self, world: &World, address: u64) -> Result<(), Box<dyn Error>> {
        self.step(world, &Request::Unpin { address })?;
        self.pinned.remove(&address);
        Ok(())
    }

    /// Holds the record for writing.
    fn write(&mut self, world: &World, address: u64, size: u64) -> Result<(), Box<dyn Error>> {
        self.step(world, &Request::ProtectForWriting { address, size })?;
        self.written = Some(address);
        Ok(())
    }
}

// ---- the play

/// What was done so that a host accepts what it would refuse.
enum Help {
    Message,
    WriteHold,
    ReaderGone,
    PinGone,
}

#[derive(Default)]
struct Story {
    /// Changes asked of both, how often who would have refused, and how often each help came.
    asked: u64,
    lead_alone: u64,
    standby_alone: u64,
    both: u64,
    helped: [u64; 4],
    created: u64,
    changed: u64,
    read: u64,
    pinned: u64,
    discarded: u64,
    messages: u64,
    longest_message: usize,
    moves: u64,
    leads_lost: u64,
    rescued: u64,
    most_dirty: u64,
    least_maximum: u64,
    most_maximum: u64,
}

struct Play {
    world: World,
    /// What every record should be.
    truth: BTreeMap<u64, Vec<u8>>,
    /// The lead and the standby.
    hosts: [Host; 2],
    random: u64,
    story: Story,
}

impl Play {
    fn below(&mut self, n: u64) -> u64 {
        self.random ^= self.random << 13;
        self.random ^= self.random >> 7;
        self.random ^= self.random << 17;
        (self.random.wrapping_mul(0x2545_f491_4f6c_dd1d) >> 11) % n
    }

    fn contents(&mut self) -> Vec<u8> {
        let size = if self.below(10) == 0 { 1 + self.below(SLOT_BYTES) } else { 1 + self.below(400) };
        (0..size).map(|_| self.below(256) as u8).collect()
    }

    /// A record of the world, if there is any.
    fn some_record(&mut self) -> Option<u64> {
        // Half of the time one of a few that are used often.
        let few = if self.below(2) == 0 { 12 } else { self.truth.len() as u64 };
        let many = few.min(self.truth.len() as u64);
        (many > 0).then(|| self.below(many)).and_then(|n| self.truth.keys().nth(n as usize).copied())
    }

    /// A change that both hosts get: it is asked of both, and done once both say yes.
    fn both(&mut self, request: Request) -> Result<(), Box<dyn Error>> {
        self.story.asked += 1;
        loop {
            let told = [LEAD, STANDBY].map(|host| self.hosts[host].told(&request));
            let (host, refusal) = match told {
                [Ok(()), Ok(())] => break,
                [Err(refusal), Ok(())] => {
                    self.story.lead_alone += 1;
                    (LEAD, refusal)
                }
                [Ok(()), Err(refusal)] => {
                    self.story.standby_alone += 1;
                    (STANDBY, refusal)
                }
                [Err(refusal), Err(_)] => {
                    self.story.both += 1;
                    (LEAD, refusal)
                }
            };
            let help = self.help(host, refusal)?;
            self.story.helped[help as usize] += 1;
        }
        for host in &mut self.hosts {
            host.step(&self.world, &request)?;
        }
        Ok(())
    }

    /// Asks a host about a request of its own until it says yes.
    fn ready(&mut self, host: usize, request: &Request) -> Result<(), Box<dyn Error>> {
        while let Err(refusal) = self.hosts[host].told(request) {
            self.help(host, refusal)?;
        }
        Ok(())
    }

    /// Does what helps a host that would refuse.
    fn help(&mut self, host: usize, refusal: Refusal) -> Result<Help, Box<dyn Error>> {
        match refusal {
            Refusal::NoRow => self.make_room(host),
            Refusal::NotInCache { address } | Refusal::NotHeld { address } => {
                let size = self.truth[&address].len() as u64;
                self.ready(host, &Request::ProtectForWriting { address, size })?;
                self.hosts[host].write(&self.world, address, size)?;
                Ok(Help::WriteHold)
            }
            Refusal::Held { address, .. } => {
                self.hosts[host].release(&self.world, address)?;
                Ok(Help::ReaderGone)
            }
            Refusal::Pinned { address } => {
                self.hosts[host].unpin(&self.world, address)?;
                Ok(Help::PinGone)
            }
            other => Err(other.into()),
        }
    }

    /// Something may be evicted that could not: what was dirty is written, or else a reader or a pin of
    /// the host goes, or of the lead, whose readers forbid a flush.
    fn make_room(&mut self, host: usize) -> Result<Help, Box<dyn Error>> {
        let lead = &self.hosts[LEAD];
        let idle = lead.readers.is_empty() && lead.written.is_none();
        if !lead.dirty.is_empty() && self.send_message(if idle { Request::Flush } else { Request::Sync })? > 0 {
            return Ok(Help::Message);
        }
        for at in [host, LEAD] {
            let host = &mut self.hosts[at];
            if let Some(address) = host.readers.front().copied() {
                host.release(&self.world, address)?;
                return Ok(Help::ReaderGone);
            }
            if let Some(address) = host.pinned.first().copied() {
                host.unpin(&self.world, address)?;
                return Ok(Help::PinGone);
            }
        }
        Err(Refusal::NoRow.into())
    }

    /// A flush or a sync of the lead, whose message the standby takes: how many records it names. Its
    /// number is what the lead tells before.
    fn send_message(&mut self, request: Request) -> Result<usize, Box<dyn Error>> {
        let number = report(&self.hosts[LEAD].table)?.next;
        let list = self.hosts[LEAD].step(&self.world, &request)?;
        let mut message = vec![0; message_bytes(list.len())];
        write_message(&mut message, number, &list)?;
        let standby = &mut self.hosts[STANDBY];
        standby.step(&self.world, &Request::Take { message: &message })?;
        for address in &list {
            standby.dirty.remove(address);
        }
        self.story.messages += 1;
        self.story.longest_message = self.story.longest_message.max(message.len());
        Ok(list.len())
    }

    /// A flush, for which the lead's readers have to go.
    fn flush(&mut self) -> Result<(), Box<dyn Error>> {
        while let Some(address) = self.hosts[LEAD].readers.front().copied() {
            self.hosts[LEAD].release(&self.world, address)?;
        }
        self.send_message(Request::Flush).map(|_| ())
    }

    fn create(&mut self) -> Result<(), Box<dyn Error>> {
        let address = self.below(SLOTS);
        if self.truth.contains_key(&address) {
            return Ok(());
        }
        let record = self.contents();
        self.insert(address, record)?;
        self.story.created += 1;
        Ok(())
    }

    fn insert(&mut self, address: u64, record: Vec<u8>) -> Result<(), Box<dyn Error>> {
        self.both(Request::Insert { address, size: record.len() as u64 })?;
        for host in &mut self.hosts {
            host.memory.insert(address, record.clone());
            host.dirty.insert(address);
        }
        self.truth.insert(address, record);
        Ok(())
    }

    /// The lead changes a record that it holds for writing. The standby holds it once it was asked.
    fn change(&mut self) -> Result<(), Box<dyn Error>> {
        let Some(address) = self.some_record() else { return Ok(()) };
        let size = self.truth[&address].len() as u64;
        self.ready(LEAD, &Request::ProtectForWriting { address, size })?;
        self.hosts[LEAD].write(&self.world, address, size)?;
        let record = self.contents();
        self.both(Request::ReleaseChanged { address, size: record.len() as u64 })?;
        for host in &mut self.hosts {
            assert_eq!(host.memory[&address], self.truth[&address], "{} has record {address}", host.name);
            host.memory.insert(address, record.clone());
            host.dirty.insert(address);
            host.written = None;
        }
        self.truth.insert(address, record);
        self.story.changed += 1;
        Ok(())
    }

    /// One host reads a record, now and then for a while.
    fn read(&mut self, pin: bool) -> Result<(), Box<dyn Error>> {
        let Some(address) = self.some_record() else { return Ok(()) };
        let size = self.truth[&address].len() as u64;
        let (at, long) = (self.below(2) as usize, self.below(10) == 0);
        let read = Request::ProtectForReading { address, size };
        self.ready(at, &read)?;
        let host = &mut self.hosts[at];
        host.step(&self.world, &read)?;
        host.readers.push_back(address);
        assert_eq!(host.memory[&address], self.truth[&address], "{} has record {address}", host.name);
        if pin && !host.pinned.contains(&address) && host.pinned.len() < MOST_PINS {
            host.step(&self.world, &Request::Pin { address })?;
            host.pinned.insert(address);
            self.story.pinned += 1;
        }
        if !long || host.readers.len() > MOST_READERS {
            host.release(&self.world, address)?;
        }
        self.story.read += 1;
        Ok(())
    }

    /// The longest reader and the first pin of each host go.
    fn let_go(&mut self) -> Result<(), Box<dyn Error>> {
        for host in &mut self.hosts {
            if let Some(address) = host.readers.front().copied() {
                host.release(&self.world, address)?;
            }
            if let Some(address) = host.pinned.first().copied() {
                host.unpin(&self.world, address)?;
            }
        }
        Ok(())
    }

    fn discard(&mut self) -> Result<(), Box<dyn Error>> {
        let Some(address) = self.some_record() else { return Ok(()) };
        self.both(Request::Discard { address })?;
        for host in &mut self.hosts {
            host.memory.remove(&address);
            host.dirty.remove(&address);
        }
        self.truth.remove(&address);
        self.story.discarded += 1;
        Ok(())
    }

    /// The world moves: all is written, and the hosts change parts with fresh caches.
    fn move_world(&mut self) -> Result<(), Box<dyn Error>> {
        self.flush()?;
        assert!(self.hosts.iter().all(|host| host.dirty.is_empty()));
        self.change_parts()?;
        self.story.moves += 1;
        Ok(())
    }

    fn change_parts(&mut self) -> Result<(), Refusal> {
        self.hosts.swap(LEAD, STANDBY);
        self.hosts[LEAD].open(Mode::Lead)?;
        self.hosts[STANDBY].open(Mode::Standby)
    }

    /// The lead is lost with its memory. The standby leads, and brings in what it knows as dirty.
    fn lose_lead(&mut self) -> Result<(), Box<dyn Error>> {
        let survivor = &self.hosts[STANDBY];
        let rescued: Vec<(u64, Vec<u8>)> =
            survivor.dirty.iter().map(|address| (*address, survivor.memory[address].clone())).collect();
        self.change_parts()?;
        self.story.leads_lost += 1;
        self.story.rescued += rescued.len() as u64;
        for (address, record) in rescued {
            self.insert(address, record)?;
        }
        Ok(())
    }

    fn act(&mut self) -> Result<(), Box<dyn Error>> {
        match self.below(1_000) {
            0..=99 => self.create(),
            100..=349 => self.change(),
            350..=849 => self.read(false),
            850..=879 => self.read(true),
            880..=919 => self.let_go(),
            920..=969 => self.discard(),
            970..=974 => self.flush(),
            975..=979 => self.send_message(Request::Sync).map(|_| ()),
            980 => self.move_world(),
            981 => self.lose_lead(),
            _ if report(&self.hosts[LEAD].table)?.due => self.send_message(Request::Sync).map(|_| ()),
            _ => Ok(()),
        }
    }

    /// No record is lost, and the caches say what the hosts know.
    fn check(&mut self) -> Result<(), Box<dyn Error>> {
        let file = self.world.read(0, SLOTS * SLOT_BYTES)?;
        let [lead, standby] = &self.hosts;
        for (address, record) in &self.truth {
            if lead.dirty.contains(address) {
                assert!(standby.dirty.contains(address), "record {address} is dirty at the lead alone");
                assert_eq!(&lead.memory[address], record, "record {address} in the lead's memory");
                assert_eq!(&standby.memory[address], record, "record {address} in the standby's memory");
            } else {
                let at = (address * SLOT_BYTES) as usize;
                assert_eq!(&file[at..at + record.len()], record, "record {address} in the file");
            }
        }
        let figures = [report(&lead.table)?, report(&standby.table)?];
        for (host, figures) in self.hosts.iter().zip(figures) {
            let held: usize = host.memory.values().map(|record| record.len()).sum();
            let dirty: usize = host.dirty.iter().map(|address| host.memory[address].len()).sum();
            let known = (held as u64, dirty as u64, host.memory.len() as u64);
            assert_eq!((figures.held, figures.dirty, figures.entries), known, "{}", host.name);
        }
        let shared = figures.map(|figures| (figures.count, figures.due, figures.next));
        assert_eq!(shared[0], shared[1], "count, due and next number");
        let story = &mut self.story;
        story.most_dirty = story.most_dirty.max(figures[0].dirty);
        story.least_maximum = story.least_maximum.min(figures[0].maximum);
        story.most_maximum = story.most_maximum.max(figures[0].maximum);
        Ok(())
    }
}

fn main() -> Result<(), Box<dyn Error>> {
    let mut arguments = std::env::args().skip(1);
    let seed: u64 = arguments.next().map_or(Ok(1), |text| text.parse())?;
    let steps: u64 = arguments.next().map_or(Ok(20_000), |text| text.parse())?;
    let given = arguments.next().map(PathBuf::from);
    let folder = match &given {
        Some(folder) => folder.clone(),
        None => std::env::temp_dir().join(format!("speldervacht-host-{}", std::process::id())),
    };
    std::fs::create_dir_all(&folder)?;
    let path = folder.join("world");
    let file = OpenOptions::new().read(true).write(true).create(true).truncate(true).open(&path)?;
    file.set_len(SLOTS * SLOT_BYTES)?;
    let mut play = Play {
        world: World { file },
        truth: BTreeMap::new(),
        hosts: [Host::new("host 1", Mode::Lead)?, Host::new("host 2", Mode::Standby)?],
        random: seed.wrapping_mul(0x9e37_79b9_7f4a_7c15).max(1),
        story: Story { least_maximum: u64::MAX, ..Story::default() },
    };
    println!("seed {seed}, {steps} steps, world in {}", path.display());
    for _ in 0..steps {
        play.act()?;
        play.check()?;
    }
    let story = &play.story;
    let [messages, write_holds, readers, pins] = story.helped;
    println!("{} created, {} changed, {} discarded", story.created, story.changed, story.discarded);
    println!("{} read, {} pinned for a while", story.read, story.pinned);
    println!("{} changes asked of both and done at both, none refused", story.asked);
    println!(
        "before, the lead alone would have refused {} times, the standby alone {} times, both {} times",
        story.lead_alone, story.standby_alone, story.both
    );
    println!(
        "what helped: {messages} messages, {write_holds} holds for writing, {readers} readers gone, {pins} pins gone"
    );
    println!("{} messages, the longest with {} bytes", story.messages, story.longest_message);
    println!(
        "{} moves; {} leads lost, {} dirty records brought in by the standby",
        story.moves, story.leads_lost, story.rescued
    );
    for host in &play.hosts {
        println!("{}: {} writes, {} loads, {} evictions", host.name, host.writes, host.loads, host.evictions);
    }
    println!("maximum from {} to {} bytes, dirty up to {}", story.least_maximum, story.most_maximum, story.most_dirty);
    println!("no record was lost at any step");
    if given.is_none() {
        std::fs::remove_dir_all(&folder)?;
    }
    Ok(())
}
