//! The world's file as the store of a host.

use super::control::Control;
use crate::mistake::Mistake;
use crate::moment::Moment;
use crate::world;
use speldervacht::Store;
use std::fs::File;
use std::io;
use std::rc::Rc;

#[derive(Clone)]
pub struct WorldFile {
    pub file: Rc<File>,
    pub control: Rc<Control>,
}

impl Store for WorldFile {
    type Error = io::Error;

    fn size(&mut self, address: u64) -> io::Result<u64> {
        world::size(&self.file, address)
    }

    fn read(&mut self, address: u64, bytes: &mut [u8]) -> io::Result<()> {
        let record = world::get(&self.file, address)?;
        if record.len() != bytes.len() {
            return Err(io::Error::other(format!("record {address} has another size")));
        }
        bytes.copy_from_slice(&record);
        Ok(())
    }

    fn write(&mut self, address: u64, bytes: &[u8]) -> io::Result<()> {
        let slot = world::slot_of(bytes);
        if self.control.reached(Moment::AmidWrites) {
            world::put(&self.file, address, &slot[..slot.len() / 2])?;
            self.control.note(|| format!("record {address}: {} of {} bytes written", slot.len() / 2, slot.len()));
            self.control.stop();
        }
        let differs = || world::get(&self.file, address).map_or(true, |record| record != bytes);
        if self.control.makes(Mistake::SkipWrite) && differs() && self.control.makes_once(Mistake::SkipWrite) {
            return Ok(());
        }
        world::put(&self.file, address, &slot)?;
        self.control.note(|| format!("record {address}: {} bytes written", slot.len()));
        Ok(())
    }

    fn sync(&mut self) -> io::Result<()> {
        self.file.sync_data()?;
        self.control.note(|| "the file is synced".into());
        Ok(())
    }
}
