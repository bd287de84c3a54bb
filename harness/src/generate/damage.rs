//! Files that are damaged: bytes and lines lost, doubled or changed, and files of bytes alone.

use crate::independent::INPUT_LIMIT;

use super::random::Random;

const BYTES: &[u8] = b"0123456789,,,,-\n\nOSTCDWRMFD \r\0+x\x80\xff";

/// Changes a file in one to eight places.
pub fn damage(random: &mut Random, file: &mut Vec<u8>) {
    for _ in 0..1 + random.below(8) {
        if file.is_empty() {
            return;
        }
        match random.below(10) {
            0..=5 => spoil(random, file),
            6 => double_line(random, file),
            7 => lose_line(random, file),
            8 => swap_lines(random, file),
            _ => {
                if random.percent(20) {
                    let end = place(random, file);
                    file.truncate(end);
                }
            }
        }
    }
    if random.percent(15) {
        file.pop();
    }
}

/// Changes, loses or adds one byte of a line.
pub fn spoil(random: &mut Random, line: &mut Vec<u8>) {
    if line.is_empty() {
        return;
    }
    match random.below(3) {
        0 => change_byte(random, line),
        1 => drop(line.remove(place(random, line))),
        _ => {
            let byte = random.pick(BYTES);
            line.insert(place(random, line), byte);
        }
    }
}

/// Makes a file longer by lines, up to about the greatest size: one byte less, exactly, or one more.
pub fn lengthen(random: &mut Random, file: &mut Vec<u8>) {
    let size = INPUT_LIMIT - 1 + random.below(3) as usize;
    let line = random.pick(&[&b"M,1\n"[..], b"D,1,1\n", b"\n", b"x\n"]);
    while file.len() < size {
        file.extend(line);
    }
    file.truncate(size);
}

/// Bytes in no order, below an opening or not.
pub fn noise(random: &mut Random) -> Vec<u8> {
    let mut file = Vec::new();
    if random.percent(60) {
        file.extend(
            b"O,2,FD,150000,1,1,1,1,1,1,1,1,1,1,1,1,1,1,1\nS,1,1,1,1,1,1,1,1,1,1,1,1,1,1,1,1\n",
        );
    }
    for _ in 0..random.below(600) {
        file.push(random.pick(BYTES));
    }
    file
}

/// Openings and schedules, mostly with something out of order.
pub fn first_lines(random: &mut Random) -> Vec<u8> {
    let accounts = random.pick(&[1, 2, 3, 63, 64]);
    let mut opening: Vec<String> = vec!["O".into(), accounts.to_string()];
    opening.push((0..accounts).map(|_| random.pick(&['F', 'D'])).collect());
    opening.extend((0..16).map(|_| random.between(1, 999_999).to_string()));
    let mut schedule: Vec<String> = vec!["S".into()];
    schedule.extend((0..16).map(|_| random.below(1_000_000_001).to_string()));
    let wrong = [
        "0",
        "1000000",
        "1000000000",
        "1000000001",
        "9999999999",
        "12345678901",
        "",
        "-1",
        "01",
        "x",
        "FF",
        "65",
        "D",
        "S",
        "O",
        "R",
    ];
    if random.percent(50) {
        let place = random.below(19) as usize;
        opening[place] = random.pick(&wrong).to_string();
    }
    if random.percent(50) {
        let place = random.below(17) as usize;
        schedule[place] = random.pick(&wrong).to_string();
    }
    if random.percent(20) {
        let place = 1 + random.below(16) as usize;
        schedule[place] = random.pick(&["1000000001", "9999999999"]).to_string();
    }
    if random.percent(10) {
        opening.pop();
    }
    if random.percent(10) {
        schedule.push("0".into());
    }
    let mut file = format!(
        "{}\n{}\nD,1,5\nM,1\n",
        opening.join(","),
        schedule.join(",")
    )
    .into_bytes();
    if random.percent(20) {
        let end = place(random, &file);
        file.truncate(end);
    }
    file
}

fn place(random: &mut Random, file: &[u8]) -> usize {
    random.below(file.len() as u64) as usize
}

fn change_byte(random: &mut Random, file: &mut [u8]) {
    file[place(random, file)] = random.pick(BYTES);
}

fn lines(file: &[u8]) -> Vec<Vec<u8>> {
    file.split_inclusive(|&byte| byte == b'\n')
        .map(<[u8]>::to_vec)
        .collect()
}

fn double_line(random: &mut Random, file: &mut Vec<u8>) {
    let mut all = lines(file);
    let line = random.pick(&all);
    all.insert(random.below(all.len() as u64) as usize, line);
    *file = all.concat();
}

fn lose_line(random: &mut Random, file: &mut Vec<u8>) {
    let mut all = lines(file);
    // seldom one of the first two
    let first = if all.len() > 3 && random.percent(95) {
        2
    } else {
        0
    };
    all.remove(first + random.below((all.len() - first) as u64) as usize);
    *file = all.concat();
}

fn swap_lines(random: &mut Random, file: &mut Vec<u8>) {
    let mut all = lines(file);
    if all.len() > 4 {
        let count = all.len() as u64 - 2;
        all.swap(
            2 + random.below(count) as usize,
            2 + random.below(count) as usize,
        );
    }
    *file = all.concat();
}
