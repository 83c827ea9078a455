//! Messages to forward: to the bind address, to a group or to a unit ("Recipients").

use super::message::{header, with_payload};
use super::records::word;
use super::view::{View, UIDS};
use crate::rng::Rng;

/// The ten request types and the six response types ("The message").
pub const REQUESTS: [u8; 10] = [0x01, 0x02, 0x04, 0x06, 0x07, 0x09, 0x0B, 0x0C, 0x0E, 0x0F];
const RESPONSES: [u8; 6] = [0x03, 0x05, 0x08, 0x0A, 0x0D, 0x10];

impl View {
    /// A message to forward: to the bind address, a group or a unit.
    pub fn forward(&self, rng: &mut Rng) -> Vec<u8> {
        let kind = match rng.below(12) {
            0 => RESPONSES[rng.below(RESPONSES.len())],
            _ => REQUESTS[rng.below(REQUESTS.len())],
        };
        let interface = rng.word() & 0x8000 | UIDS[rng.below(UIDS.len())];
        let length = if rng.percent(95) {
            rng.below(9)
        } else {
            rng.below(486)
        };
        let payload = rng.octets(length);
        let msg = match rng.below(10) {
            0..=4 => {
                let bind = rng.pick(&self.binds);
                let bind = bind.unwrap_or_else(|| self.bind(rng));
                let (sender, interface) = self.request_for(rng, bind);
                let member = rng.octet();
                // Now and then not quite the bind address.
                let device = if rng.percent(4) { 0xFFFF } else { 0x7FFF };
                let unit = if rng.percent(4) { rng.octet() } else { 0xFF };
                header(rng, sender, device, unit, kind, interface, member)
            }
            5..=7 => {
                let group = 0x8000 | self.group(rng);
                let member = rng.pick(&self.members);
                let sender = match member {
                    Some(member) if rng.percent(50) => (word(&member, 2), member[4]),
                    _ => self.sender(rng),
                };
                let unit = rng.weighted(&[(50, 0xFF), (25, 0), (25, 3)]);
                let member = rng.octet();
                header(rng, sender, group, unit, kind, interface, member)
            }
            _ => {
                let (device, unit) = self.perhaps_unit(rng);
                let sender = if rng.percent(5) {
                    (device, unit)
                } else {
                    self.sender(rng)
                };
                let member = rng.octet();
                header(rng, sender, device, unit, kind, interface, member)
            }
        };
        with_payload(rng, msg, &payload)
    }
}
