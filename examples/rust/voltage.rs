//! An output voltage from Rust: its code, the packet error code of the packet that sets it, and what a
//! capture of that packet says. The declarations are those of include/pmb.h that it needs.
//!
//!     rustc --edition 2021 -L native=release -l static=pmb examples/rust/voltage.rs -o voltage
//!     ./voltage

#[repr(C)]
#[derive(Default)]
struct Format {
    kind: u8,
    exponent: i8,
    mode: u8,
    r: i8,
    m: i16,
    b: i16,
}

#[repr(C)]
#[derive(Clone, Copy, Default)]
struct Quantity {
    numerator: i64,
    denominator: i64,
}

#[repr(C)]
#[derive(Default)]
struct Told {
    status: i32,
    fault: i32,
    device: i32,
    command: i32,
    length: usize,
    packets: u64,
    refusals: u64,
    line: u32,
    column: u32,
}

extern "C" {
    fn pmb_encode(format: &Format, quantity: Quantity, code: &mut u16) -> i32;
    fn pmb_decode(format: &Format, code: u16, quantity: &mut Quantity) -> i32;
    fn pmb_pec(crc: u8, bytes: *const u8, length: usize) -> u8;
    fn pmb_show(
        profile: *const u8,
        profile_length: usize,
        capture: *const u8,
        capture_length: usize,
        out: *mut u8,
        room: usize,
        told: &mut Told,
    ) -> usize;
}

const VOUT: u8 = 5; // PMB_VOUT of enum pmb_kind
const NO_ROOM: i32 = 16; // PMB_NO_ROOM of enum pmb_status

/// What `pmb show` writes of a capture, or the status. A text that is longer than the room is written
/// again.
fn show(profile: &str, capture: &str) -> Result<String, i32> {
    let mut told = Told {
        length: 4096,
        status: NO_ROOM,
        ..Default::default()
    };
    let mut out = Vec::new();
    while told.status == NO_ROOM {
        out.resize(told.length, 0);
        unsafe {
            pmb_show(
                profile.as_ptr(),
                profile.len(),
                capture.as_ptr(),
                capture.len(),
                out.as_mut_ptr(),
                out.len(),
                &mut told,
            )
        };
    }
    out.truncate(told.length);
    match told.status {
        0 => Ok(String::from_utf8(out).expect("the text is ASCII")),
        status => Err(status),
    }
}

fn main() {
    let format = Format {
        kind: VOUT,
        mode: 0x17,
        ..Default::default()
    };
    let wanted = Quantity {
        numerator: 33,
        denominator: 10,
    };
    let (mut code, mut value) = (0, Quantity::default());
    assert_eq!(unsafe { pmb_encode(&format, wanted, &mut code) }, 0);
    assert_eq!(unsafe { pmb_decode(&format, code, &mut value) }, 0);
    println!(
        "3.3 V is {code:04x}, which is {}/{}",
        value.numerator, value.denominator
    );

    let [low, high] = code.to_le_bytes();
    let packet = [0xb0, 0x21, low, high];
    let pec = unsafe { pmb_pec(0, packet.as_ptr(), packet.len()) };
    println!("its packet error code is {pec:02x}");

    let profile = "[[device]]\naddress = 0x58\npec = 'on'\nvout_mode = 0x17";
    let capture = format!("S b0 A 21 A {low:02x} A {high:02x} A {pec:02x} A P");
    print!("{}", show(profile, &capture).expect("pmb_show"));
}
