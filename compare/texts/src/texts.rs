//! The texts to compare on.

/// The signs of every text that a length, a Number or a double can be, `?`, and a space.
pub const ALPHABET: &[u8; 23] = b"+-0123456789.eEinfaty? ";

/// Every text of so many bytes over the alphabet, in order.
pub fn every(len: usize, see: &mut impl FnMut(&[u8])) {
    let mut places = vec![0; len];
    let mut text = vec![ALPHABET[0]; len];
    loop {
        see(&text);
        let mut i = len;
        loop {
            if i == 0 {
                return;
            }
            i -= 1;
            places[i] += 1;
            if places[i] < ALPHABET.len() {
                text[i] = ALPHABET[places[i]];
                break;
            }
            places[i] = 0;
            text[i] = ALPHABET[0];
        }
    }
}

/// The digits of each limit, and of what stands near it: two less to two more, each digit one less or more, one digit less, one more.
fn near_limits() -> Vec<String> {
    let limits: [u128; 9] = [
        0,
        i32::MAX as u128,
        u32::MAX as u128,
        i64::MAX as u128,
        1 << 63,
        u64::MAX as u128,
        1 << 64,
        // 18 digits are as many as a short reading takes
        10u128.pow(18),
        10u128.pow(19),
    ];
    let mut all = Vec::new();
    for limit in limits {
        for n in limit.saturating_sub(2)..=limit + 2 {
            all.push(n.to_string());
        }
        let text = limit.to_string();
        for i in 0..text.len() {
            for other in [text.as_bytes()[i] - 1, text.as_bytes()[i] + 1] {
                let mut t = text.clone().into_bytes();
                // the bytes just before 0 and just after 9 among them
                t[i] = other;
                all.push(String::from_utf8(t).unwrap());
            }
            all.push(format!("{}{}", &text[..i], &text[i + 1..]));
        }
        for i in 0..=text.len() {
            for d in 0..10 {
                all.push(format!("{}{d}{}", &text[..i], &text[i..]));
            }
        }
    }
    all
}

/// The limits of whole numbers, with signs and leading zeros, and with a byte of the alphabet before or after.
pub fn limits(see: &mut impl FnMut(&[u8])) {
    for digits in near_limits() {
        for sign in ["", "+", "-", "++", "+-", "-+", "--", " ", "- "] {
            for zeros in 0..=25 {
                see(format!("{sign}{}{digits}", "0".repeat(zeros)).as_bytes());
            }
            for c in ALPHABET {
                see(format!("{}{sign}{digits}", *c as char).as_bytes());
                see(format!("{sign}{digits}{}", *c as char).as_bytes());
            }
        }
    }
}

/// A word in every letter case.
fn cases(word: &str) -> Vec<String> {
    (0..1u32 << word.len())
        .map(|k| {
            word.chars()
                .enumerate()
                .map(|(i, c)| {
                    if k >> i & 1 == 1 {
                        c.to_ascii_uppercase()
                    } else {
                        c
                    }
                })
                .collect()
        })
        .collect()
}

/// Doubles at their limits, and the words, with one byte less and one more.
pub fn doubles(see: &mut impl FnMut(&[u8])) {
    let mut all: Vec<String> = ["inf", "infinity", "nan"]
        .into_iter()
        .flat_map(cases)
        .collect();
    for v in [f64::MAX, f64::MIN_POSITIVE, f64::EPSILON, 5e-324, 0.1, 1.0] {
        all.push(format!("{v:e}"));
        all.push(format!("{v:E}"));
        all.push(format!("{v}"));
    }
    for e in [
        "308",
        "309",
        "-324",
        "-325",
        "+308",
        "99999999999999999999",
        "-99999999999999999999",
        "00000000000000000000000001",
    ] {
        for m in ["1", "1.", ".1", "1.1", "0", ".", ""] {
            all.push(format!("{m}e{e}"));
        }
    }
    for text in all {
        for sign in ["", "+", "-", "+-", " "] {
            see(format!("{sign}{text}").as_bytes());
            for i in 0..=text.len() {
                for c in ALPHABET {
                    see(format!("{sign}{}{}{}", &text[..i], *c as char, &text[i..]).as_bytes());
                }
                if i < text.len() {
                    see(format!("{sign}{}{}", &text[..i], &text[i + 1..]).as_bytes());
                }
            }
        }
    }
}

/// Numbers that a seed gives, all the same at each run (splitmix64).
struct Random(u64);

impl Random {
    fn below(&mut self, n: usize) -> usize {
        self.0 = self.0.wrapping_add(0x9e37_79b9_7f4a_7c15);
        let mut z = self.0;
        z = (z ^ (z >> 30)).wrapping_mul(0xbf58_476d_1ce4_e5b9);
        z = (z ^ (z >> 27)).wrapping_mul(0x94d0_49bb_1331_11eb);
        ((z ^ (z >> 31)) % n as u64) as usize
    }

    fn symbol(&mut self) -> u8 {
        ALPHABET[self.below(ALPHABET.len())]
    }

    fn digits(&mut self, most: usize, text: &mut Vec<u8>) {
        for _ in 0..self.below(most + 1) {
            text.push(b'0' + self.below(10) as u8);
        }
    }

    fn sign(&mut self, text: &mut Vec<u8>) {
        text.extend([&b""[..], b"", b"+", b"-"][self.below(4)]);
    }

    /// A whole number or a double, or nearly one.
    fn number(&mut self) -> Vec<u8> {
        let mut text = Vec::new();
        self.sign(&mut text);
        self.digits(22, &mut text);
        if self.below(2) == 0 {
            text.push(b'.');
            self.digits(10, &mut text);
        }
        if self.below(3) == 0 {
            text.push(b"eE"[self.below(2)]);
            self.sign(&mut text);
            self.digits(4, &mut text);
        }
        if self.below(3) == 0 {
            let at = self.below(text.len() + 1);
            let symbol = self.symbol();
            text.insert(at, symbol);
        }
        text
    }
}

/// So many texts of 6 to 24 bytes over the alphabet: every other one without a rule, the others near a number.
pub fn random(seed: u64, count: u64, see: &mut impl FnMut(&[u8])) {
    let mut r = Random(seed);
    let mut seen = 0;
    while seen < count {
        let text = if seen % 2 == 0 {
            let n = 6 + r.below(19);
            (0..n).map(|_| r.symbol()).collect()
        } else {
            r.number()
        };
        if (6..=24).contains(&text.len()) {
            see(&text);
            seen += 1;
        }
    }
}
