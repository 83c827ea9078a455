//! All binds read back at the end of a run, as by a fitter who compares the hub with a sheet ("CR 1").

use super::{Run, Runs};
use crate::case::Call;
use crate::generate::{set_of, some_address};
use crate::history::{octets, Unit};

/// Binds ever added whose two ends are asked after.
const ASKED: usize = 3;

impl Runs<'_> {
    /// A device that comes with rights starts a session, reads page after page by index until one is empty, and then by either end of some binds. The pages
    /// together are all binds that stand, each once. Each answer by itself is held against the history as every other is.
    pub(super) fn read_back(&mut self, run: &mut Run) -> Result<(), String> {
        let fitter = self.fitter(run)?;
        // Where all session records are taken, one that reads makes room.
        if self.served(run, fitter, 0x07, &[])?[0] == 0xFE {
            let Some(&reader) = run.history.readers().first() else {
                // No session record is lent at all.
                return Ok(());
            };
            self.served(run, (reader, 0), 0x08, &[])?;
            self.served(run, fitter, 0x07, &[])?;
        }
        let number = self
            .rng
            .weighted(&[(4, 255), (2, 61), (2, 60), (2, 59), (1, 7), (1, 1)]);
        let mut read = Vec::new();
        loop {
            let [f1, f2] = (read.len() as u16).to_be_bytes();
            let page = self.served(run, fitter, 0x09, &[f1, f2, number])?;
            if page.len() <= 2 {
                break;
            }
            let entries = page[2..].chunks_exact(8);
            read.extend(entries.map(|entry| <[u8; 8]>::try_from(entry).expect("eight octets")));
        }
        let mut standing = run.history.binds();
        read.sort();
        standing.sort();
        if read != standing {
            return Err(format!(
                "the pages are not what stands\n  read  {read:02X?}\n  stand {standing:02X?}"
            ));
        }
        let ever = run.history.binds_ever();
        for _ in 0..ASKED.min(ever.len()) {
            let bind = ever[self.rng.below(ever.len())];
            self.served(run, fitter, 0x0A, &bind[..2])?;
            self.served(run, fitter, 0x0B, &bind[..3])?;
            self.served(run, fitter, 0x0C, &bind[5..7])?;
            self.served(run, fitter, 0x0D, &bind[5..])?;
        }
        self.served(run, fitter, 0x08, &[]).map(drop)
    }

    /// A device that is admitted with rights, or D'0:U'0 where no record is free for one.
    fn fitter(&mut self, run: &mut Run) -> Result<Unit, String> {
        let devices = run.history.devices();
        let address = loop {
            let address = some_address(self.rng);
            if devices.iter().all(|device| device.0 != address) {
                break address;
            }
        };
        let call = Call::Admit {
            address,
            rights: 1,
            units: set_of([0]),
        };
        match self.step(run, call)? {
            0 => Ok((address, 0)),
            22 => Ok((0, 0)),
            outcome => Err(format!("a device is not admitted: outcome {outcome}")),
        }
    }

    /// The payload of the reply to a command of Bind Management, which must be served.
    fn served(
        &mut self,
        run: &mut Run,
        from: Unit,
        member: u8,
        payload: &[u8],
    ) -> Result<Vec<u8>, String> {
        let (app_ref, kind) = (self.rng.octet(), 1 + self.rng.octet() % 2);
        let mut msg = octets(&[from]);
        msg.extend_from_slice(&[0, 0, 0, 0, 0, app_ref, kind, 0x80, 2, member]);
        msg.extend_from_slice(&(payload.len() as u16).to_be_bytes());
        msg.extend_from_slice(payload);
        let call = self.message(&run.world, msg);
        match self.step(run, call)? {
            0 => Ok(run.history.reply().to_vec()),
            outcome => Err(format!(
                "a command by which binds are read back is not served: outcome {outcome}"
            )),
        }
    }
}
