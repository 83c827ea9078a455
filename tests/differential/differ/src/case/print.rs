//! Cases and answers as they are printed: every octet in hexadecimal.

use super::{Answer, Call, Case, World};
use std::fmt;

pub fn hexadecimal(octets: &[u8]) -> String {
    octets.iter().map(|octet| format!("{octet:02X}")).collect()
}

impl fmt::Display for World {
    fn fmt(&self, to: &mut fmt::Formatter) -> fmt::Result {
        writeln!(to, "  devices {}", hexadecimal(&self.devices))?;
        writeln!(to, "  binds   {}", hexadecimal(&self.binds))?;
        writeln!(to, "  groups  {}", hexadecimal(&self.groups))?;
        writeln!(to, "  members {}", hexadecimal(&self.members))?;
        writeln!(to, "  sessions {}", hexadecimal(&self.sessions))
    }
}

impl fmt::Display for Call {
    fn fmt(&self, to: &mut fmt::Formatter) -> fmt::Result {
        match self {
            Call::Message { msg, reply, list } => {
                writeln!(to, "  message {}", hexadecimal(msg))?;
                writeln!(to, "  reply   {}", hexadecimal(reply))?;
                writeln!(to, "  list    {}", hexadecimal(list))
            }
            Call::Admit {
                address,
                rights,
                units,
            } => {
                writeln!(to, "  admit   {address:04X} rights {rights:02X}")?;
                writeln!(to, "  units   {}", hexadecimal(units))
            }
            Call::Release { address } => writeln!(to, "  release {address:04X}"),
            Call::Copy {
                msg,
                room,
                device,
                unit,
            } => {
                writeln!(to, "  copy    {}", hexadecimal(msg))?;
                writeln!(to, "  to      {device:04X}:{unit:02X}")?;
                writeln!(to, "  room    {}", hexadecimal(room))
            }
            Call::Read { msg, fields } => {
                writeln!(to, "  read    {}", hexadecimal(msg))?;
                writeln!(to, "  fields  {fields:04X?}")
            }
            Call::CarryOver { old, new } => {
                writeln!(to, "  old     {}", hexadecimal(old))?;
                writeln!(to, "  new     {}", hexadecimal(new))
            }
        }
    }
}

impl fmt::Display for Case {
    fn fmt(&self, to: &mut fmt::Formatter) -> fmt::Result {
        write!(to, "{}{}", self.world, self.call)
    }
}

impl fmt::Display for Answer {
    fn fmt(&self, to: &mut fmt::Formatter) -> fmt::Result {
        writeln!(
            to,
            "  outcome {} count {} reason {} octet {}",
            self.outcome, self.count, self.reason, self.octet
        )?;
        if self.outside() {
            writeln!(to, "  octets outside a lent slice were changed")?;
        }
        write!(to, "{}{}", self.world, self.call)
    }
}
