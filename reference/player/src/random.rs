//! Scripts made from seeds: lines that a play at that point accepts, now and then a bad one at the end, or one byte damaged.

use model::command::{parse, Who};
use model::play::{Outcome, Play};

/// A small generator of numbers (splitmix64), the same on every machine.
struct Dice(u64);

impl Dice {
    fn next(&mut self) -> u64 {
        self.0 = self.0.wrapping_add(0x9e37_79b9_7f4a_7c15);
        let mut z = self.0;
        z = (z ^ (z >> 30)).wrapping_mul(0xbf58_476d_1ce4_e5b9);
        z = (z ^ (z >> 27)).wrapping_mul(0x94d0_49bb_1331_11eb);
        z ^ (z >> 31)
    }

    /// A number below the bound, which is not 0.
    fn below(&mut self, bound: usize) -> usize {
        (self.next() % bound as u64) as usize
    }

    fn one_in(&mut self, chances: usize) -> bool {
        self.below(chances) == 0
    }

    fn byte(&mut self) -> u8 {
        self.below(256) as u8
    }

    fn who(&mut self) -> Who {
        if self.one_in(2) {
            Who::First
        } else {
            Who::Second
        }
    }
}

/// How often each kind of line comes in one script.
struct Habits {
    send: usize,
    deliver: usize,
    stop: usize,
    read: usize,
    show: usize,
    /// One in so many deliveries turns a bit.
    flip: usize,
    /// One in so many sends begins a run long enough to reach the limits.
    run: usize,
}

impl Habits {
    fn of(dice: &mut Dice) -> Habits {
        Habits {
            send: 6 + dice.below(20),
            deliver: 6 + dice.below(20),
            stop: dice.below(5),
            read: dice.below(4),
            show: 1 + dice.below(4),
            flip: 4 + dice.below(12),
            run: 20 + dice.below(60),
        }
    }
}

/// A script in the making, and the play of it so far.
struct Writer {
    dice: Dice,
    habits: Habits,
    lines: usize,
    script: Vec<u8>,
    written: usize,
    play: Play,
    /// The messages not opened yet that left, oldest first.
    under_way: Vec<usize>,
    /// Who is in the middle of a run of sends, and how many are to come.
    run: Option<(Who, usize)>,
}

/// The script of a seed, with so many lines.
pub fn script(seed: u64, lines: usize) -> Vec<u8> {
    let mut dice = Dice(seed);
    let habits = Habits::of(&mut dice);
    let ends_badly = dice.one_in(6);
    let mut writer = Writer {
        dice,
        habits,
        lines,
        script: Vec::new(),
        written: 0,
        play: Play::new(),
        under_way: Vec::new(),
        run: None,
    };
    while writer.written + usize::from(ends_badly) < lines {
        let line = writer.line();
        writer.write(&line);
    }
    if writer.written < lines {
        let line = writer.bad_line();
        writer.script.extend(line);
    }
    writer.script
}

/// The script of a seed with one byte changed, taken out, put in or put twice.
pub fn damaged(seed: u64, lines: usize) -> Vec<u8> {
    let mut script = script(seed, lines);
    let mut dice = Dice(!seed);
    if script.is_empty() {
        return script;
    }
    let at = dice.below(script.len());
    match dice.below(5) {
        0 => script[at] ^= 1 << dice.below(8),
        1 => script[at] = b" \\\t\r\n#0"[dice.below(7)],
        2 => script.insert(at, dice.byte()),
        3 => script.insert(at, script[at]),
        _ => {
            script.remove(at);
        }
    }
    script
}

impl Writer {
    /// Adds a line and plays it.
    fn write(&mut self, line: &[u8]) {
        self.script.extend(line);
        self.script.push(b'\n');
        self.written += 1;
        let Ok(Some(command)) = parse(line) else {
            return;
        };
        match self.play.step(command) {
            Ok(Outcome::Sent { number, .. }) => self.under_way.push(number),
            Ok(Outcome::Opened { number, .. }) | Ok(Outcome::OpenedAndLost { number }) => {
                self.under_way.retain(|other| *other != number)
            }
            _ => {}
        }
    }

    fn line(&mut self) -> Vec<u8> {
        if let Some((who, count)) = self.run {
            self.run = (count > 1).then_some((who, count - 1));
            return format!("send {}", who.name()).into_bytes();
        }
        let Habits {
            send,
            deliver,
            stop,
            read,
            show,
            ..
        } = self.habits;
        let kinds = [send, deliver, stop, read, show, 1];
        let mut pick = self.dice.below(kinds.iter().sum());
        let kind = kinds.iter().position(|weight| {
            let found = pick < *weight;
            pick = pick.saturating_sub(*weight);
            found
        });
        match kind {
            Some(0) => self.send(),
            Some(1) => self.deliver(),
            Some(2) => self.stop(),
            Some(3) => format!("read {}", self.dice.who().name()).into_bytes(),
            Some(4) => b"show".to_vec(),
            _ => self.passed_over(),
        }
    }

    fn send(&mut self) -> Vec<u8> {
        let who = self.dice.who();
        let count = 250 + self.dice.below(12);
        if self.lines - self.written > 2 * count && self.dice.one_in(self.habits.run) {
            self.run = Some((who, count));
        }
        let mut line = format!("send {}", who.name()).into_bytes();
        if !self.dice.one_in(8) {
            line.push(b' ');
            line.extend(self.text());
        }
        line
    }

    /// A text as it is written: letters, bytes of all kinds, or one around the longest.
    fn text(&mut self) -> Vec<u8> {
        if self.dice.one_in(40) {
            return vec![b'a'; 999 + self.dice.below(3)];
        }
        let odd = self.dice.one_in(3);
        let mut text = Vec::new();
        for _ in 0..self.dice.below(12) {
            match self.dice.byte() {
                byte if !odd => text.push(b'a' + byte % 26),
                byte if self.dice.one_in(4) => text.extend(format!("\\x{byte:02X}").bytes()),
                byte if byte == b'\\' || self.dice.one_in(4) => {
                    text.extend(format!("\\x{byte:02x}").bytes())
                }
                b'\n' => text.push(b' '),
                byte => text.push(byte),
            }
        }
        text
    }

    fn deliver(&mut self) -> Vec<u8> {
        let Some(number) = self.message() else {
            return self.send();
        };
        let mut line = format!("deliver {number}");
        if self.dice.one_in(self.habits.flip) {
            let bits = 8 * (63 + self.play.messages()[number - 1].text.len());
            line += &format!(" flip {}", self.dice.below(bits));
        }
        line.into_bytes()
    }

    /// A message that left: mostly one under way, the oldest or newest or any; else any, opened or not.
    fn message(&mut self) -> Option<usize> {
        let under_way = self.under_way.len();
        if under_way > 0 && !self.dice.one_in(6) {
            let index = match self.dice.below(4) {
                0 => self.dice.below(under_way),
                1 => under_way - 1,
                2 => under_way - 1 - self.dice.below(under_way.min(4)),
                _ => 0,
            };
            return Some(self.under_way[index]);
        }
        let messages = self.play.messages();
        let left: Vec<usize> = (1..=messages.len())
            .filter(|number| messages[number - 1].left)
            .collect();
        (!left.is_empty()).then(|| left[self.dice.below(left.len())])
    }

    fn stop(&mut self) -> Vec<u8> {
        let who = self.dice.who();
        let write = self.play.writes(who) as usize + 1 + self.dice.below(5);
        if self.play.stop_is_set(who, write as u32) {
            return self.passed_over();
        }
        let moment = if self.dice.one_in(2) {
            "before"
        } else {
            "after"
        };
        format!("stop {} {moment} {write}", who.name()).into_bytes()
    }

    fn passed_over(&mut self) -> Vec<u8> {
        let lines: [&[u8]; 5] = [b"", b"  \t", b"\r", b"# send first", b"#\\"];
        lines[self.dice.below(lines.len())].to_vec()
    }

    fn bad_line(&mut self) -> Vec<u8> {
        let messages = self.play.messages().len();
        let who = self.dice.who();
        let name = who.name();
        let write = self.play.writes(who);
        let line = match self.dice.below(14) {
            0 => format!("deliver {}", messages + 1 + self.dice.below(3)),
            1 => "deliver 0".to_string(),
            2 => "deliver 4294967296".to_string(),
            3 => format!("stop {name} before 0"),
            4 => format!("stop {name} after {write}"),
            5 => match (write + 1..write + 6).find(|write| self.play.stop_is_set(who, *write)) {
                Some(set) => format!("stop {name} after {set}"),
                None => format!("stop {name} at 1"),
            },
            6 => format!("send {name} a\\x5"),
            7 => format!("send {name} \\\\"),
            8 => format!("send {name}\t"),
            9 => "show ".to_string(),
            10 => format!("read {name}\r"),
            11 => " # no remark".to_string(),
            12 => match self
                .play
                .messages()
                .iter()
                .position(|message| !message.left)
            {
                Some(lost) => format!("deliver {}", lost + 1),
                None => "deliver  1".to_string(),
            },
            _ => match self.play.messages().last() {
                Some(last) => format!("deliver {messages} flip {}", 8 * (63 + last.text.len())),
                None => "flip 1".to_string(),
            },
        };
        line.into_bytes()
    }
}
