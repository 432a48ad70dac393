//! The packed file of answers: plain numbers, most significant byte first, nothing compressed. crates/lower_replay/README.md has the layout.
use crate::limits::Asked;
use crate::trees::pack::rule_of;
use crate::trees::rule::{Part, Rule};

/// An image longer than this is held by its checksum alone.
pub const SHOWN: usize = 1500;

/// One case of a packed file.
#[derive(Debug, PartialEq)]
pub struct Packed {
    pub mode: u64,
    pub rule: Rule,
    pub tree_length: u32,
    pub work: u32,
    pub room: u32,
    /// Number, place and length; the visits are not packed.
    pub told: [u32; 3],
    pub checksum: u32,
    /// The image, or nothing where it is longer than `SHOWN`.
    pub image: Vec<u8>,
}

impl Packed {
    pub fn of(asked: &Asked) -> Packed {
        let rule = rule_of(&asked.tree);
        assert_eq!(rule.expand(), asked.tree, "the rule is the tree's");
        Packed {
            mode: asked.mode,
            rule,
            tree_length: asked.tree.len() as u32,
            work: asked.work.try_into().expect("32 bits of work words"),
            room: asked.room.try_into().expect("32 bits of room"),
            told: [asked.answer.number.into(), asked.answer.place as u32, asked.answer.length as u32],
            checksum: checksum(&asked.image),
            image: if asked.image.len() > SHOWN { vec![] } else { asked.image.clone() },
        }
    }
}

/// Adler-32; 1 of no bytes.
pub fn checksum(bytes: &[u8]) -> u32 {
    let (mut a, mut b) = (1u32, 0u32);
    for byte in bytes {
        a = (a + u32::from(*byte)) % 65_521;
        b = (b + a) % 65_521;
    }
    b * 65_536 + a
}

pub fn write(cases: &[Packed]) -> Vec<u8> {
    let most = |f: fn(&Packed) -> u32| cases.iter().map(f).max().unwrap_or(0);
    let mut out = vec![];
    let head = [cases.len() as u32, most(|c| c.tree_length), most(|c| c.work), most(|c| c.room)];
    head.iter().for_each(|n| long(&mut out, *n));
    for case in cases {
        out.extend(case.mode.to_be_bytes());
        write_rule(&mut out, &case.rule);
        let [number, place, length] = case.told;
        let numbers = [case.tree_length, case.work, case.room, number, place, length, case.checksum];
        numbers.iter().for_each(|n| long(&mut out, *n));
        long(&mut out, case.image.len() as u32);
        out.extend(&case.image);
    }
    out
}

fn write_rule(out: &mut Vec<u8>, rule: &Rule) {
    short(out, rule.0.len());
    for part in &rule.0 {
        long(out, part.times);
        short(out, part.pattern.len());
        out.extend(&part.pattern);
        short(out, part.steps.len());
        for (offset, step) in &part.steps {
            short(out, (*offset).into());
            short(out, (*step).into());
        }
    }
}

fn short(out: &mut Vec<u8>, n: usize) {
    out.extend(u16::try_from(n).expect("16 bits").to_be_bytes());
}

fn long(out: &mut Vec<u8>, n: u32) {
    out.extend(n.to_be_bytes());
}

/// Reads what `write` writes.
pub fn read(bytes: &[u8]) -> Option<Vec<Packed>> {
    let mut r = Reader(bytes);
    let count = r.long()?;
    r.take(12)?;
    let cases = (0..count).map(|_| r.case()).collect::<Option<Vec<_>>>()?;
    r.0.is_empty().then_some(cases)
}

struct Reader<'b>(&'b [u8]);

impl Reader<'_> {
    fn take(&mut self, n: usize) -> Option<&[u8]> {
        let (front, back) = self.0.split_at_checked(n)?;
        self.0 = back;
        Some(front)
    }

    fn short(&mut self) -> Option<u16> {
        Some(u16::from_be_bytes(self.take(2)?.try_into().ok()?))
    }

    fn long(&mut self) -> Option<u32> {
        Some(u32::from_be_bytes(self.take(4)?.try_into().ok()?))
    }

    fn whole(&mut self) -> Option<u64> {
        Some(u64::from_be_bytes(self.take(8)?.try_into().ok()?))
    }

    fn part(&mut self) -> Option<Part> {
        let times = self.long()?;
        let size = self.short()?;
        let pattern = self.take(size.into())?.to_vec();
        let steps = (0..self.short()?).map(|_| Some((self.short()?, self.short()?))).collect::<Option<_>>()?;
        Some(Part { times, pattern, steps })
    }

    fn case(&mut self) -> Option<Packed> {
        let mode = self.whole()?;
        let rule = Rule((0..self.short()?).map(|_| self.part()).collect::<Option<_>>()?);
        let [tree_length, work, room] = [self.long()?, self.long()?, self.long()?];
        let told = [self.long()?, self.long()?, self.long()?];
        let checksum = self.long()?;
        let shown = self.long()?;
        let image = self.take(shown as usize)?.to_vec();
        Some(Packed { mode, rule, tree_length, work, room, told, checksum, image })
    }
}
