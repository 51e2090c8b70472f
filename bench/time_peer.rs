//! The cases of instants again in plain Rust, by hand and by the C library: `time_peer CASE SIZE`.
use std::os::raw::{c_char, c_int, c_long};

const TEXTS: u64 = 1_000;
const STEP: u64 = 253_402_300_799;
const DAY: i64 = 86_400_000;

#[repr(C)]
#[derive(Clone, Copy)]
struct Tm {
    sec: c_int,
    min: c_int,
    hour: c_int,
    mday: c_int,
    mon: c_int,
    year: c_int,
    wday: c_int,
    yday: c_int,
    isdst: c_int,
    gmtoff: c_long,
    zone: *const c_char,
}

extern "C" {
    fn timegm(tm: *mut Tm) -> i64;
    fn gmtime_r(time: *const i64, tm: *mut Tm) -> *mut Tm;
    fn strftime(text: *mut c_char, max: usize, format: *const c_char, tm: *const Tm) -> usize;
    fn strptime(text: *const c_char, format: *const c_char, tm: *mut Tm) -> *const c_char;
}

fn empty() -> Tm {
    Tm { sec: 0, min: 0, hour: 0, mday: 0, mon: 0, year: 0, wday: 0, yday: 0, isdst: 0, gmtoff: 0, zone: std::ptr::null() }
}

// Howard Hinnant's algorithms on civil days.
fn days_from_civil(y: i64, m: i64, d: i64) -> i64 {
    let y = if m <= 2 { y - 1 } else { y };
    let era = y.div_euclid(400);
    let yoe = y.rem_euclid(400);
    let doy = (153 * (if m > 2 { m - 3 } else { m + 9 }) + 2) / 5 + d - 1;
    era * 146_097 + yoe * 365 + yoe / 4 - yoe / 100 + doy - 719_468
}

fn civil_from_days(z: i64) -> (i64, i64, i64) {
    let z = z + 719_468;
    let era = z.div_euclid(146_097);
    let doe = z.rem_euclid(146_097);
    let yoe = (doe - doe / 1_460 + doe / 36_524 - doe / 146_096) / 365;
    let doy = doe - (365 * yoe + yoe / 4 - yoe / 100);
    let mp = (5 * doy + 2) / 153;
    let d = doy - (153 * mp + 2) / 5 + 1;
    let m = if mp < 10 { mp + 3 } else { mp - 9 };
    (yoe + era * 400 + i64::from(m <= 2), m, d)
}

fn digits(text: &[u8], from: usize, to: usize) -> Option<i64> {
    let mut n = 0;
    for b in text.get(from..to)? {
        if !b.is_ascii_digit() {
            return None;
        }
        n = n * 10 + i64::from(b - b'0');
    }
    Some(n)
}

fn read(text: &[u8]) -> Option<i64> {
    if text.len() != 20 || text[4] != b'-' || text[7] != b'-' || text[10] != b'T' || text[13] != b':' || text[16] != b':' || text[19] != b'Z' {
        return None;
    }
    let (y, m, d) = (digits(text, 0, 4)?, digits(text, 5, 7)?, digits(text, 8, 10)?);
    let (h, n, s) = (digits(text, 11, 13)?, digits(text, 14, 16)?, digits(text, 17, 19)?);
    let leap = y % 4 == 0 && (y % 100 != 0 || y % 400 == 0);
    let most = match m { 2 => if leap { 29 } else { 28 }, 4 | 6 | 9 | 11 => 30, _ => 31 };
    if m < 1 || m > 12 || d < 1 || d > most || h > 23 || n > 59 || s > 59 {
        return None;
    }
    Some(days_from_civil(y, m, d) * DAY + ((h * 60 + n) * 60 + s) * 1_000)
}

fn print(t: i64) -> [u8; 24] {
    let (y, m, d) = civil_from_days(t.div_euclid(DAY));
    let ms = t.rem_euclid(DAY);
    let mut text = *b"0000-00-00T00:00:00.000Z";
    let mut put = |at: usize, n: i64| {
        text[at] = b'0' + (n / 10) as u8;
        text[at + 1] = b'0' + (n % 10) as u8;
    };
    put(0, y / 100);
    put(2, y % 100);
    put(5, m);
    put(8, d);
    put(11, ms / 3_600_000);
    put(14, ms / 60_000 % 60);
    put(17, ms / 1_000 % 60);
    put(21, ms % 100);
    text[20] = b'0' + (ms / 100 % 10) as u8;
    text
}

fn read_by_c(text: &[u8]) -> Option<i64> {
    let mut tm = empty();
    let end = unsafe { strptime(text.as_ptr().cast(), c"%Y-%m-%dT%H:%M:%SZ".as_ptr(), &mut tm) };
    if end.is_null() {
        return None;
    }
    Some(unsafe { timegm(&mut tm) } * 1_000)
}

fn print_by_c(t: i64) -> [u8; 24] {
    let seconds = t / 1_000;
    let mut tm = empty();
    let mut text = [0u8; 24];
    unsafe {
        gmtime_r(&seconds, &mut tm);
        strftime(text.as_mut_ptr().cast(), 24, c"%Y-%m-%dT%H:%M:%S".as_ptr(), &tm);
    }
    let ms = t % 1_000;
    text[19] = b'.';
    text[20] = b'0' + (ms / 100) as u8;
    text[21] = b'0' + (ms / 10 % 10) as u8;
    text[22] = b'0' + (ms % 10) as u8;
    text[23] = b'Z';
    text
}

fn time_read(size: u64, read: impl Fn(&[u8]) -> Option<i64>) -> u64 {
    let texts: Vec<Vec<u8>> = (0..TEXTS)
        .map(|turn| {
            let mut text = print((turn * STEP % 253_402_300_800_000) as i64)[..19].to_vec();
            text.extend_from_slice(b"Z\0");
            text
        })
        .collect();
    let mut sum = 0u64;
    for _ in 0..size / TEXTS {
        for text in &texts {
            if let Some(t) = read(&text[..20]) {
                sum = sum.wrapping_add(t as u64);
            }
        }
    }
    sum
}

fn time_print(size: u64, print: impl Fn(i64) -> [u8; 24]) -> u64 {
    let mut sum = 0u64;
    for turn in 0..size {
        let text = print((turn.wrapping_mul(STEP) % 253_402_300_800_000) as i64);
        for byte in text {
            sum = sum.wrapping_add(u64::from(byte));
        }
    }
    sum
}

fn main() {
    let words: Vec<String> = std::env::args().collect();
    let size = words[2].parse().unwrap();
    let sum = match words[1].as_str() {
        "time-read" => time_read(size, read),
        "time-print" => time_print(size, print),
        "time-read-c" => time_read(size, read_by_c),
        "time-print-c" => time_print(size, print_by_c),
        _ => panic!("no such case"),
    };
    println!("{sum}");
}
