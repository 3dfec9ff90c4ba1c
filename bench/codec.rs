//! Measures the proved codec against plain Rust, after comparing what the two answer.
mod reference;

use reference::*;
use std::hint::black_box;
use std::time::Instant;

unsafe extern "C" {
    fn wire_read(bytes: *const u8, len: usize) -> u64;
    fn wire_rewrite(bytes: *const u8, len: usize, out: *mut u8, room: usize) -> u64;
    fn wire_write_data(writer: u16, number: u32, payload: *const u8, len: usize, out: *mut u8, room: usize) -> u64;
    fn wire_write_join(writer: u16, term: u32, out: *mut u8, room: usize) -> u64;
    fn wire_write_hack(writer: u16, hack: &Hack, out: *mut u8, room: usize) -> u64;
}

const ROOM: usize = 600;
const COMPARED: u32 = 1_000_000;

/// A payload and the buffer that packets are written to, on one page. Packets are written at 64 places in turn, since the
/// time of a copy hangs on where it falls.
#[repr(align(4096))]
struct Page {
    payload: [u8; 512],
    out: [u8; ROOM + 64],
}

/// A generator with a fixed seed, so that each run compares the same packets.
struct Random(u64);

impl Random {
    fn next(&mut self) -> u64 {
        self.0 ^= self.0 << 13;
        self.0 ^= self.0 >> 7;
        self.0 ^= self.0 << 17;
        self.0
    }

    fn below(&mut self, n: u64) -> u64 {
        self.next() % n
    }

    fn at_least_one(&mut self) -> u32 {
        match self.below(8) {
            0 => 1,
            1 => u32::MAX,
            _ => (self.next() as u32).max(1),
        }
    }
}

#[unsafe(no_mangle)]
#[inline(never)]
extern "C" fn plain_copy(bytes: *const u8, len: usize, out: *mut u8) -> u64 {
    unsafe { std::ptr::copy_nonoverlapping(bytes, out, len) };
    len as u64
}

fn random_hack(random: &mut Random) -> Hack {
    let lsn = random.at_least_one();
    let hsn = (lsn - 1).saturating_add(random.below(257) as u32).min(u32::MAX - 1);
    let mut flags = [0; 9];
    for word in &mut flags {
        *word = random.next() as u32;
    }
    flags[0] &= !(1 << (31 - lsn % 32));
    Hack {
        term: random.at_least_one(),
        serial: random.at_least_one(),
        lsn,
        hsn,
        flags,
    }
}

fn nine_words(random: &mut Random, lsn: u32) -> Hack {
    let mut hack = random_hack(random);
    hack.flags[0] &= !(1 << (31 - lsn % 32));
    Hack {
        lsn,
        hsn: lsn + 255,
        ..hack
    }
}

/// A packet of any type whose fields are in range.
fn random_packet<'a>(random: &mut Random, payload: &'a [u8]) -> Packet<'a> {
    let number = random.at_least_one().min(u32::MAX - 1);
    let payload = &payload[..1 + random.below(512) as usize];
    let term = random.at_least_one();
    let body = match random.below(13) {
        0 => Body::Data { number, payload },
        1 => Body::Retransmission { number, payload },
        2 => Body::Hack(random_hack(random)),
        3 => Body::JoinStream { term },
        4 => Body::JoinAck { term },
        5 => Body::JoinConfirm {
            term,
            start: random.at_least_one(),
            slot: random.below(16) as u16,
        },
        6 => Body::LeaveStream { term },
        7 => Body::Heartbeat {
            clock: random.next() as u32,
        },
        8 => Body::NullData { highest: number },
        9 => Body::Eject { term },
        10 => Body::Eos { highest: number - 1 },
        11 => Body::HeartbeatResponse {
            term,
            clock: random.next() as u32,
        },
        _ => Body::LeaveConfirm { term },
    };
    Packet {
        tree: std::array::from_fn(|_| random.next() as u8),
        stream: 32768 + random.below(32768) as u16,
        writer: 1 + random.below(65535) as u16,
        addressee: random.next() as u16,
        body,
    }
}

/// Another type, another length, a bit turned, or bytes lost or added.
fn damage(random: &mut Random, bytes: &mut Vec<u8>) {
    let how = random.next();
    if how & 3 == 0 {
        bytes[1] = random.below(15) as u8;
    }
    if how & 12 == 0 {
        let len = [15, 16, 20, 24, 26, 38, 42, 74][random.below(8) as usize];
        bytes.resize(len, 0);
    }
    if how & 16 == 0 {
        let at = random.below(bytes.len().min(40) as u64) as usize;
        bytes[at] ^= 1 << random.below(8);
    }
    if how & 96 == 0 {
        let len = random.below(600) as usize;
        bytes.resize(len, 7);
    }
}

/// Stops with the packet at which the two differ, if there is one.
fn compare(payload: &[u8]) {
    let mut random = Random(88172645463325252);
    let mut refused = 0;
    for round in 0..COMPARED {
        let mut bytes = vec![0; ROOM];
        let len = write(&random_packet(&mut random, payload), &mut bytes).expect("in range");
        bytes.truncate(len);
        if round % 2 == 1 {
            damage(&mut random, &mut bytes);
        }
        let (ours, plain) = unsafe {
            (
                wire_read(bytes.as_ptr(), bytes.len()),
                plain_read(bytes.as_ptr(), bytes.len()),
            )
        };
        assert_eq!(ours, plain, "read of {bytes:?}");
        let room = if round % 16 == 0 {
            random.below(ROOM as u64) as usize
        } else {
            ROOM
        };
        let (mut out, mut expected) = ([9; ROOM], [9; ROOM]);
        let ours = unsafe { wire_rewrite(bytes.as_ptr(), bytes.len(), out.as_mut_ptr(), room) };
        let plain = plain_rewrite(bytes.as_ptr(), bytes.len(), expected.as_mut_ptr(), room);
        assert!(ours == plain && out == expected, "write of {bytes:?}");
        refused += (ours < 13) as u32;
    }
    println!(
        "same answers on {COMPARED} packets, {} of them written and {refused} refused",
        COMPARED - refused
    );
}

fn at_place(out: *mut u8, i: usize) -> *mut u8 {
    black_box(unsafe { out.add(i) })
}

fn time(call: &mut dyn FnMut(usize) -> u64) -> f64 {
    const CALLS: usize = 20_000;
    let start = Instant::now();
    let mut sum = 0u64;
    for i in 0..CALLS {
        sum = sum.wrapping_add(call(i % 64));
    }
    black_box(sum);
    start.elapsed().as_nanos() as f64 / CALLS as f64
}

/// The lower quartile of many short runs, taken in turn so that a slow moment falls on all three alike.
fn line(name: &str, mut calls: [&mut dyn FnMut(usize) -> u64; 3]) {
    let mut runs: [Vec<f64>; 3] = Default::default();
    for _ in 0..80 {
        for (call, runs) in calls.iter_mut().zip(&mut runs) {
            runs.push(time(*call));
        }
    }
    let [ours, plain, memcpy] = runs.map(|mut times| {
        times.sort_by(f64::total_cmp);
        times[times.len() / 4]
    });
    println!("{name:22} {ours:8.2} {plain:8.2} {:8.2} {memcpy:8.2}", ours / plain);
}

fn measure_read(name: &str, packets: &[Vec<u8>], out: *mut u8) {
    let at = |i: usize| (packets[i].as_ptr(), packets[i].len());
    line(
        &format!("read  {name}"),
        [
            &mut |i| unsafe { wire_read(at(i).0, at(i).1) },
            &mut |i| plain_read(at(i).0, at(i).1),
            &mut |i| plain_copy(at(i).0, at(i).1, at_place(out, i)),
        ],
    );
}

fn measure_write(
    name: &str,
    packets: &[Vec<u8>],
    out: *mut u8,
    ours: impl Fn(usize, *mut u8) -> u64,
    plain: impl Fn(usize, *mut u8) -> u64,
) {
    line(
        &format!("write {name}"),
        [
            &mut |i| ours(i, at_place(out, i)),
            &mut |i| plain(i, at_place(out, i)),
            &mut |i| plain_copy(packets[i].as_ptr(), packets[i].len(), at_place(out, i)),
        ],
    );
}

/// 64 packets of one kind, by the plain writer.
fn packets(write: impl Fn(usize, *mut u8) -> u64) -> Vec<Vec<u8>> {
    let made = |i| {
        let mut bytes = vec![0; ROOM];
        let len = write(i, bytes.as_mut_ptr());
        bytes.truncate(len as usize);
        bytes
    };
    (0..64).map(made).collect()
}

fn main() {
    let mut page = Box::new(Page {
        payload: std::array::from_fn(|i| i as u8),
        out: [0; ROOM + 64],
    });
    compare(&page.payload);
    println!(
        "{:22} {:>8} {:>8} {:>8} {:>8}",
        "ns per packet", "proved", "Rust", "ratio", "memcpy"
    );
    let (payload, out) = (page.payload.as_ptr(), page.out.as_mut_ptr());

    let plain = |i: usize, out| plain_write_join(7, 1 + i as u32, out, ROOM);
    let joins = packets(plain);
    measure_read("JoinStream", &joins, out);
    let ours = |i: usize, out| unsafe { wire_write_join(7, 1 + i as u32, out, ROOM) };
    measure_write("JoinStream", &joins, out, ours, plain);

    for len in [64, 512] {
        let plain = |i: usize, out| plain_write_data(7, 1 + i as u32, payload, len, out, ROOM);
        let data = packets(plain);
        measure_read(&format!("Data {len}"), &data, out);
        let ours = |i: usize, out| unsafe { wire_write_data(7, 1 + i as u32, payload, len, out, ROOM) };
        measure_write(&format!("Data {len}"), &data, out, ours, plain);
    }

    let mut random = Random(88172645463325252);
    let reports: Vec<Hack> = (0..64).map(|i| nine_words(&mut random, 32 * (i + 2) + 16)).collect();
    let plain = |i: usize, out| plain_write_hack(7, &reports[i], out, ROOM);
    let hacks = packets(plain);
    measure_read("HACK of 9 words", &hacks, out);
    let ours = |i: usize, out| unsafe { wire_write_hack(7, &reports[i], out, ROOM) };
    measure_write("HACK of 9 words", &hacks, out, ours, plain);
}
