//! The library's six calls, as C sees them (`include/gneissfold.h`).

extern "C" {
    pub fn gneissfold_message(
        devices: *mut u8,
        devices_length: usize,
        binds: *mut u8,
        binds_length: usize,
        groups: *mut u8,
        groups_length: usize,
        members: *mut u8,
        members_length: usize,
        sessions: *mut u8,
        sessions_length: usize,
        message: *const u8,
        message_length: usize,
        reply: *mut u8,
        reply_length: usize,
        list: *mut u8,
        list_length: usize,
        count: *mut usize,
        reason: *mut u8,
        octet: *mut u8,
    ) -> u8;
    pub fn gneissfold_admit(
        devices: *mut u8,
        devices_length: usize,
        binds: *const u8,
        binds_length: usize,
        groups: *const u8,
        groups_length: usize,
        members: *const u8,
        members_length: usize,
        sessions: *const u8,
        sessions_length: usize,
        address: u16,
        rights: u8,
        units: *const u8,
    ) -> u8;
    pub fn gneissfold_release(
        devices: *mut u8,
        devices_length: usize,
        binds: *mut u8,
        binds_length: usize,
        groups: *const u8,
        groups_length: usize,
        members: *mut u8,
        members_length: usize,
        sessions: *mut u8,
        sessions_length: usize,
        address: u16,
    ) -> u8;
    pub fn gneissfold_carry_over(
        old_devices: *const u8,
        old_length: usize,
        devices: *mut u8,
        devices_length: usize,
    ) -> u8;
    pub fn gneissfold_copy(
        message: *const u8,
        message_length: usize,
        room: *mut u8,
        room_length: usize,
        device: u16,
        unit: u8,
        length: *mut usize,
    ) -> u8;
    pub fn gneissfold_read(message: *const u8, message_length: usize, fields: *mut u16) -> u8;
}
