//! The functions of the static library, as c/cartridge_host.h declares them.

use crate::packets::{Values, Verdict};

#[repr(C)]
#[derive(Clone, Copy)]
pub struct Checked {
    pub status: u8,
    pub has_detail: bool,
    pub detail: u8,
    pub has_number: bool,
    pub number: u16,
    pub has_command: bool,
    pub command: u8,
}

#[repr(C)]
#[derive(Clone, Copy)]
pub struct Written {
    pub status: u8,
    pub length: usize,
}

extern "C" {
    fn cartridge_check_packet(packet: *const u8, length: usize) -> Checked;
    fn cartridge_write_request(
        buffer: *mut u8,
        length: usize,
        map: u8,
        number: u16,
        command: u8,
        option: u8,
        label: *const u8,
        place: u8,
        target: u16,
        drive_state: u8,
    ) -> Written;
}

#[inline]
pub fn check(packet: &[u8]) -> Checked {
    // The pointer and the length are a slice's.
    unsafe { cartridge_check_packet(packet.as_ptr(), packet.len()) }
}

#[inline]
pub fn write(buffer: &mut [u8], map: u8, v: &Values) -> Written {
    // The pointer and the length are a slice's, and the label has six bytes.
    unsafe {
        cartridge_write_request(
            buffer.as_mut_ptr(),
            buffer.len(),
            map,
            v.number,
            v.command,
            v.option,
            v.label.as_ptr(),
            v.place,
            v.target,
            v.drive_state,
        )
    }
}

impl Checked {
    /// As the other side tells it; none where a value that is not there is not 0.
    pub fn verdict(self) -> Option<Verdict> {
        let blank = (self.has_detail || self.detail == 0)
            && (self.has_number || self.number == 0)
            && (self.has_command || self.command == 0);
        blank.then_some(Verdict {
            status: self.status,
            detail: self.has_detail.then_some(self.detail),
            number: self.has_number.then_some(self.number),
            command: self.has_command.then_some(self.command),
        })
    }
}
