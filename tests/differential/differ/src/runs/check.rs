//! What the history says at one moment, asked of the part: who is linked, who is in a group, and who exists.

use super::Runs;
use crate::case::{hexadecimal, Call, World};
use crate::generate::{self, near, some_unit, REQUESTS, UIDS};
use crate::history::{octets, History, Standing, Unit};

/// Most senders asked after at one check.
const ASKED: usize = 10;
/// Units asked after at one check.
const ASKED_UNITS: usize = 2;
/// D'7FFF:U'FF.
const BIND_ADDRESS: [u8; 3] = [0x7F, 0xFF, 0xFF];

impl Runs<'_> {
    /// Asks the part and compares with what the history says.
    pub(super) fn check(&mut self, world: &World, history: &History) -> Result<(), String> {
        let standing = Standing::of(history);
        let ever = history.binds_ever();
        for _ in 0..ASKED.min(ever.len() + 1) {
            let (sender, interface) = match self.rng.pick(&ever) {
                Some(bind) if self.rng.percent(90) => {
                    generate::request_for(self.rng, bind, &standing.devices)
                }
                _ => (
                    self.some_sender(&standing),
                    0x8000 | UIDS[self.rng.below(UIDS.len())],
                ),
            };
            let expected = standing.linked(sender, interface);
            self.check_forward(
                world,
                &standing,
                sender,
                BIND_ADDRESS,
                interface,
                Some(&expected),
            )?;
        }
        for group in history.groups_ever() {
            self.check_info(world, &standing, group)?;
            if standing.groups.iter().any(|there| there.0 == group) {
                let sender = self.some_sender(&standing);
                let expected = standing.in_group(sender, group);
                let [high, low] = (group | 0x8000).to_be_bytes();
                self.check_forward(
                    world,
                    &standing,
                    sender,
                    [high, low, 0xFF],
                    0x8200,
                    Some(&expected),
                )?;
            }
        }
        for _ in 0..ASKED_UNITS {
            self.check_unit(world, &standing)?;
        }
        Ok(())
    }

    /// A unit of an admitted device, or one near it, as destination and as
    /// sender: it exists if and only if it was admitted.
    fn check_unit(&mut self, world: &World, standing: &Standing) -> Result<(), String> {
        let Some((device, units)) = self.rng.pick(&standing.devices) else {
            return Ok(());
        };
        let mut unit = some_unit(self.rng, &units);
        if self.rng.percent(60) {
            unit = near(self.rng, unit);
        }
        let asked = (device, unit);
        let [high, low] = device.to_be_bytes();
        let there = [asked];
        let expected = standing.exists(asked).then_some(&there[..]);
        self.check_forward(world, standing, (0, 0), [high, low, unit], 0x8200, expected)?;
        let expected = standing.linked(asked, 0x8200);
        self.check_forward(
            world,
            standing,
            asked,
            BIND_ADDRESS,
            0x8200,
            Some(&expected),
        )
    }

    /// A member or any admitted unit, by the history.
    fn some_sender(&mut self, standing: &Standing) -> Unit {
        match (
            self.rng.pick(&standing.members),
            self.rng.pick(&standing.devices),
        ) {
            (Some(member), _) if self.rng.percent(60) => (generate::word(&member, 2), member[4]),
            (_, Some((device, units))) => (device, some_unit(self.rng, &units)),
            _ => (0, 0),
        }
    }

    /// Asks for a message to be forwarded, to the units expected; `None` where
    /// its destination does not exist.
    fn check_forward(
        &mut self,
        world: &World,
        standing: &Standing,
        sender: Unit,
        destination: [u8; 3],
        interface: u16,
        expected: Option<&[Unit]>,
    ) -> Result<(), String> {
        let kind = REQUESTS[self.rng.below(REQUESTS.len())];
        let mut msg = octets(&[sender]);
        msg.extend_from_slice(&destination);
        msg.extend_from_slice(&[0, 0, self.rng.octet(), kind]);
        msg.extend_from_slice(&interface.to_be_bytes());
        msg.extend_from_slice(&[1, 0, 0]);
        let (outcome, expected) = match expected {
            _ if !standing.exists(sender) => (13, Vec::new()),
            None => (14, Vec::new()),
            Some([]) => (2, Vec::new()),
            Some(units) => (1, octets(units)),
        };
        let call = self.message(world, msg.clone());
        let answer = self.made(world, call)?;
        let there = match &answer.call {
            Call::Message { list, .. } => &list[..(3 * answer.count).min(list.len())],
            _ => &[],
        };
        if answer.outcome == outcome && there == expected && answer.count == expected.len() / 3 {
            return Ok(());
        }
        Err(format!(
            "the history links others\n  message {}\n  expected outcome {outcome} list {}\n{answer}",
            hexadecimal(&msg),
            hexadecimal(&expected),
        ))
    }

    fn check_info(&mut self, world: &World, standing: &Standing, group: u16) -> Result<(), String> {
        let sender = self.some_sender(standing);
        let mut msg = octets(&[sender]);
        msg.extend_from_slice(&[0, 0, 0, 0, 0, self.rng.octet(), 2, 0x80, 3, 5, 0, 2]);
        msg.extend_from_slice(&group.to_be_bytes());
        let expected = standing.info(group);
        let call = self.message(world, msg.clone());
        let answer = self.made(world, call)?;
        let there = match &answer.call {
            Call::Message { reply, .. } => reply.get(15..answer.count).unwrap_or(&[]),
            _ => &[],
        };
        if answer.outcome == 0 && there == expected {
            return Ok(());
        }
        Err(format!(
            "the history counts others\n  message {}\n  expected payload {}\n{answer}",
            hexadecimal(&msg),
            hexadecimal(&expected),
        ))
    }
}
