//! The same packets in plain Rust, by hand: what the proved codec is measured against.
#[repr(C)]
#[derive(Clone, Copy)]
pub struct Hack {
    pub term: u32,
    pub serial: u32,
    pub lsn: u32,
    pub hsn: u32,
    pub flags: [u32; 9],
}

#[derive(Clone, Copy)]
pub enum Body<'a> {
    Data { number: u32, payload: &'a [u8] },
    Retransmission { number: u32, payload: &'a [u8] },
    Hack(Hack),
    JoinStream { term: u32 },
    JoinAck { term: u32 },
    JoinConfirm { term: u32, start: u32, slot: u16 },
    LeaveStream { term: u32 },
    Heartbeat { clock: u32 },
    NullData { highest: u32 },
    Eject { term: u32 },
    Eos { highest: u32 },
    HeartbeatResponse { term: u32, clock: u32 },
    LeaveConfirm { term: u32 },
}

#[derive(Clone, Copy)]
pub struct Packet<'a> {
    pub tree: [u8; 6],
    pub stream: u16,
    pub writer: u16,
    pub addressee: u16,
    pub body: Body<'a>,
}

#[derive(Clone, Copy, PartialEq, Debug)]
#[repr(u8)]
pub enum Refusal {
    ShortPacket = 7,
    BadHeader = 8,
    UnknownType = 9,
    LengthMismatch = 10,
    OutOfRange = 11,
    ShortOutput = 12,
}

fn be16(b: &[u8], at: usize) -> u16 {
    u16::from_be_bytes(b[at..at + 2].try_into().unwrap())
}
fn be32(b: &[u8], at: usize) -> u32 {
    u32::from_be_bytes(b[at..at + 4].try_into().unwrap())
}

fn words(lsn: u32, hsn: u32) -> u32 {
    if hsn < lsn {
        0
    } else {
        (lsn % 32 + (hsn - lsn)) / 32 + 1
    }
}

fn hack_ok(term: u32, serial: u32, lsn: u32, hsn: u32) -> bool {
    term > 0 && serial > 0 && lsn > 0 && hsn < u32::MAX && lsn <= hsn + 1 && (hsn <= lsn || hsn - lsn <= 255)
}

// Sets the positions before lsn and clears those after hsn.
fn tidy_flags(lsn: u32, hsn: u32, flags: &mut [u32; 9]) {
    let n = words(lsn, hsn) as usize;
    if n == 0 {
        *flags = [0; 9];
        let k = lsn % 32;
        if k > 0 {
            flags[0] = u32::MAX << (32 - k);
        }
        return;
    }
    let k = lsn % 32;
    if k > 0 {
        flags[0] |= u32::MAX << (32 - k);
    }
    let through = lsn % 32 + (hsn + 1 - lsn);
    let last = through - 32 * (n as u32 - 1);
    flags[n - 1] &= u32::MAX << (32 - last);
    for f in &mut flags[n..] {
        *f = 0;
    }
}

pub fn read(b: &[u8]) -> Result<Packet<'_>, Refusal> {
    if b.len() < 16 {
        return Err(Refusal::ShortPacket);
    }
    if b[0] != 32 || b[14] != 0 || b[15] != 0 {
        return Err(Refusal::BadHeader);
    }
    let kind = b[1];
    if kind == 0 || kind > 13 {
        return Err(Refusal::UnknownType);
    }
    let whole = match kind {
        1 | 2 => b.len() >= 22 && b.len() == 22 + be16(b, 20) as usize,
        3 => b.len() >= 38 && b.len() == 38 + 4 * be16(b, 36) as usize,
        6 => b.len() == 26,
        12 => b.len() == 24,
        _ => b.len() == 20,
    };
    if !whole {
        return Err(Refusal::LengthMismatch);
    }
    let (stream, writer, addressee) = (be16(b, 8), be16(b, 10), be16(b, 12));
    if stream < 32768 || writer == 0 {
        return Err(Refusal::OutOfRange);
    }
    let first = be32(b, 16);
    let data_ok = |number: u32, p: &[u8]| number > 0 && number < u32::MAX && !p.is_empty() && p.len() <= 512;
    let need = |ok: bool| if ok { Ok(()) } else { Err(Refusal::OutOfRange) };
    let body = match kind {
        1 => {
            let payload = &b[22..];
            need(data_ok(first, payload))?;
            Body::Data { number: first, payload }
        }
        2 => {
            let payload = &b[22..];
            need(data_ok(first, payload))?;
            Body::Retransmission { number: first, payload }
        }
        3 => {
            let (serial, lsn, hsn) = (be32(b, 20), be32(b, 24), be32(b, 28));
            need(hack_ok(first, serial, lsn, hsn))?;
            let n = words(lsn, hsn);
            need(be32(b, 32) == lsn - 1 && be16(b, 36) as u32 == n)?;
            let mut flags = [0u32; 9];
            for (f, c) in flags.iter_mut().zip(b[38..].chunks_exact(4)) {
                *f = u32::from_be_bytes(c.try_into().unwrap());
            }
            tidy_flags(lsn, hsn, &mut flags);
            need(hsn < lsn || (flags[0] >> (31 - lsn % 32)) & 1 == 0)?;
            Body::Hack(Hack {
                term: first,
                serial,
                lsn,
                hsn,
                flags,
            })
        }
        4 => {
            need(first > 0)?;
            Body::JoinStream { term: first }
        }
        5 => {
            need(first > 0)?;
            Body::JoinAck { term: first }
        }
        6 => {
            let (start, slot) = (be32(b, 20), be16(b, 24));
            need(first > 0 && start > 0 && slot <= 15)?;
            Body::JoinConfirm {
                term: first,
                start,
                slot,
            }
        }
        7 => {
            need(first > 0)?;
            Body::LeaveStream { term: first }
        }
        8 => Body::Heartbeat { clock: first },
        9 => {
            need(first < u32::MAX)?;
            Body::NullData { highest: first }
        }
        10 => {
            need(first > 0)?;
            Body::Eject { term: first }
        }
        11 => {
            need(first < u32::MAX)?;
            Body::Eos { highest: first }
        }
        12 => {
            need(first > 0)?;
            Body::HeartbeatResponse {
                term: first,
                clock: be32(b, 20),
            }
        }
        _ => {
            need(first > 0)?;
            Body::LeaveConfirm { term: first }
        }
    };
    Ok(Packet {
        tree: b[2..8].try_into().unwrap(),
        stream,
        writer,
        addressee,
        body,
    })
}

pub fn write(p: &Packet<'_>, out: &mut [u8]) -> Result<usize, Refusal> {
    let data_ok = |number: u32, p: &[u8]| number > 0 && number < u32::MAX && !p.is_empty() && p.len() <= 512;
    let ok = p.stream >= 32768
        && p.writer > 0
        && match &p.body {
            Body::Data { number, payload } | Body::Retransmission { number, payload } => data_ok(*number, payload),
            Body::Hack(h) => {
                hack_ok(h.term, h.serial, h.lsn, h.hsn) && (h.hsn < h.lsn || (h.flags[0] >> (31 - h.lsn % 32)) & 1 == 0)
            }
            Body::JoinStream { term }
            | Body::JoinAck { term }
            | Body::LeaveStream { term }
            | Body::Eject { term }
            | Body::LeaveConfirm { term }
            | Body::HeartbeatResponse { term, .. } => *term > 0,
            Body::JoinConfirm { term, start, slot } => *term > 0 && *start > 0 && *slot <= 15,
            Body::Heartbeat { .. } => true,
            Body::NullData { highest } | Body::Eos { highest } => *highest < u32::MAX,
        };
    if !ok {
        return Err(Refusal::OutOfRange);
    }
    let (code, size) = match &p.body {
        Body::Data { payload, .. } => (1, 22 + payload.len()),
        Body::Retransmission { payload, .. } => (2, 22 + payload.len()),
        Body::Hack(h) => (3, 38 + 4 * words(h.lsn, h.hsn) as usize),
        Body::JoinStream { .. } => (4, 20),
        Body::JoinAck { .. } => (5, 20),
        Body::JoinConfirm { .. } => (6, 26),
        Body::LeaveStream { .. } => (7, 20),
        Body::Heartbeat { .. } => (8, 20),
        Body::NullData { .. } => (9, 20),
        Body::Eject { .. } => (10, 20),
        Body::Eos { .. } => (11, 20),
        Body::HeartbeatResponse { .. } => (12, 24),
        Body::LeaveConfirm { .. } => (13, 20),
    };
    if out.len() < size {
        return Err(Refusal::ShortOutput);
    }
    let out = &mut out[..size];
    out[0] = 32;
    out[1] = code;
    out[2..8].copy_from_slice(&p.tree);
    out[8..10].copy_from_slice(&p.stream.to_be_bytes());
    out[10..12].copy_from_slice(&p.writer.to_be_bytes());
    out[12..14].copy_from_slice(&p.addressee.to_be_bytes());
    out[14] = 0;
    out[15] = 0;
    match &p.body {
        Body::Data { number, payload } | Body::Retransmission { number, payload } => {
            out[16..20].copy_from_slice(&number.to_be_bytes());
            out[20..22].copy_from_slice(&(payload.len() as u16).to_be_bytes());
            out[22..].copy_from_slice(payload);
        }
        Body::Hack(h) => {
            let n = words(h.lsn, h.hsn);
            out[16..20].copy_from_slice(&h.term.to_be_bytes());
            out[20..24].copy_from_slice(&h.serial.to_be_bytes());
            out[24..28].copy_from_slice(&h.lsn.to_be_bytes());
            out[28..32].copy_from_slice(&h.hsn.to_be_bytes());
            out[32..36].copy_from_slice(&(h.lsn - 1).to_be_bytes());
            out[36..38].copy_from_slice(&(n as u16).to_be_bytes());
            let mut flags = h.flags;
            tidy_flags(h.lsn, h.hsn, &mut flags);
            for (c, f) in out[38..].chunks_exact_mut(4).zip(flags) {
                c.copy_from_slice(&f.to_be_bytes());
            }
        }
        Body::JoinConfirm { term, start, slot } => {
            out[16..20].copy_from_slice(&term.to_be_bytes());
            out[20..24].copy_from_slice(&start.to_be_bytes());
            out[24..26].copy_from_slice(&slot.to_be_bytes());
        }
        Body::HeartbeatResponse { term, clock } => {
            out[16..20].copy_from_slice(&term.to_be_bytes());
            out[20..24].copy_from_slice(&clock.to_be_bytes());
        }
        Body::JoinStream { term }
        | Body::JoinAck { term }
        | Body::LeaveStream { term }
        | Body::Eject { term }
        | Body::LeaveConfirm { term } => out[16..20].copy_from_slice(&term.to_be_bytes()),
        Body::Heartbeat { clock: x } | Body::NullData { highest: x } | Body::Eos { highest: x } => {
            out[16..20].copy_from_slice(&x.to_be_bytes())
        }
    }
    Ok(size)
}

fn digest(p: &Packet<'_>) -> u64 {
    let head = p.stream as u64 ^ ((p.writer as u64) << 16) ^ ((p.addressee as u64) << 32);
    head ^ match &p.body {
        Body::Data { number, payload } => *number as u64 ^ payload.len() as u64,
        Body::Retransmission { number, payload } => *number as u64 ^ payload.len() as u64,
        Body::Hack(h) => {
            h.term as u64 ^ h.serial as u64 ^ h.lsn as u64 ^ h.hsn as u64 ^ h.flags[0] as u64 ^ h.flags[8] as u64
        }
        Body::JoinStream { term }
        | Body::JoinAck { term }
        | Body::LeaveStream { term }
        | Body::Eject { term }
        | Body::LeaveConfirm { term } => *term as u64,
        Body::JoinConfirm { term, start, slot } => *term as u64 ^ *start as u64 ^ *slot as u64,
        Body::Heartbeat { clock: x } | Body::NullData { highest: x } | Body::Eos { highest: x } => *x as u64,
        Body::HeartbeatResponse { term, clock } => *term as u64 ^ *clock as u64,
    }
}

fn number(answer: Result<usize, Refusal>) -> u64 {
    match answer {
        Ok(len) => len as u64,
        Err(refusal) => refusal as u64,
    }
}

// Each of these is called as the exported functions are: out of line, with pointers, and exported, so that no caller is compiled into them.

#[unsafe(no_mangle)]
#[inline(never)]
pub extern "C" fn plain_read(bytes: *const u8, len: usize) -> u64 {
    let bytes = unsafe { std::slice::from_raw_parts(bytes, len) };
    match read(bytes) {
        Ok(packet) => digest(&packet),
        Err(refusal) => refusal as u64,
    }
}

#[unsafe(no_mangle)]
#[inline(never)]
pub extern "C" fn plain_rewrite(bytes: *const u8, len: usize, out: *mut u8, room: usize) -> u64 {
    let bytes = unsafe { std::slice::from_raw_parts(bytes, len) };
    let out = unsafe { std::slice::from_raw_parts_mut(out, room) };
    match read(bytes) {
        Ok(packet) => number(write(&packet, out)),
        Err(refusal) => refusal as u64,
    }
}

fn write_from(writer: u16, body: Body<'_>, out: *mut u8, room: usize) -> u64 {
    let out = unsafe { std::slice::from_raw_parts_mut(out, room) };
    number(write(
        &Packet {
            tree: [1, 2, 3, 4, 5, 6],
            stream: 40000,
            writer,
            addressee: 9,
            body,
        },
        out,
    ))
}

#[unsafe(no_mangle)]
#[inline(never)]
pub extern "C" fn plain_write_data(
    writer: u16,
    number: u32,
    payload: *const u8,
    len: usize,
    out: *mut u8,
    room: usize,
) -> u64 {
    let payload = unsafe { std::slice::from_raw_parts(payload, len) };
    write_from(writer, Body::Data { number, payload }, out, room)
}

#[unsafe(no_mangle)]
#[inline(never)]
pub extern "C" fn plain_write_join(writer: u16, term: u32, out: *mut u8, room: usize) -> u64 {
    write_from(writer, Body::JoinStream { term }, out, room)
}

#[unsafe(no_mangle)]
#[inline(never)]
pub extern "C" fn plain_write_hack(writer: u16, hack: &Hack, out: *mut u8, room: usize) -> u64 {
    write_from(writer, Body::Hack(*hack), out, room)
}
