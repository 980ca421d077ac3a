//! Inputs: logs with nested blocks, every kind and width of operand, BLOCKINFO, wrappers, overlong numbers, wrong lengths and limits from both sides,
//! some sound and some with faults, and damaged copies of them. The number of an input and the seed decide it.
use crate::check::Case;
use crate::maker::{Maker, Op, Rng};
use crate::rules;
use crate::stream::{Bits, MAGIC, TOP, WRAPPER};

type Kind = fn(&mut Rng) -> Bits;

fn sound(rng: &mut Rng) -> Bits {
    let items = 1 + rng.below(8);
    Maker::new(rng, 0, items).stream()
}

fn faulty(rng: &mut Rng) -> Bits {
    let (faults, items) = (rng.one_of(&[5, 10, 20, 50, 100, 250]), 1 + rng.below(7));
    Maker::new(rng, faults, items).stream()
}

/// BLOCKINFO first, then blocks that use it.
fn informed(rng: &mut Rng) -> Bits {
    let (faults, blocks) = (rng.one_of(&[0, 0, 20, 60, 200]), rng.below(3));
    let (mut maker, mut bits) = (Maker::new(rng, faults, 6), Bits::default());
    (0..1 + blocks / 2).for_each(|_| maker.info(&mut bits, 2, TOP));
    (0..blocks).for_each(|_| maker.block(&mut bits, 2, 1));
    bits
}

/// One block that defines and uses, so that each kind and width of operand comes often.
fn using(rng: &mut Rng) -> Bits {
    let (faults, width) = (rng.one_of(&[0, 0, 0, 10, 40, 150]), rng.one_of(&[3, 3, 4, 5, 32]));
    let (mut maker, mut bits, mut body) = (Maker::new(rng, faults, 9), Bits::default(), Bits::default());
    let known: Vec<Vec<Op>> = (0..maker.rng.one_of(&[1, 1, 2, 3])).map(|_| maker.operands()).collect();
    for ops in &known {
        maker.id(&mut body, 2, width);
        maker.define(&mut body, ops);
    }
    for _ in 0..maker.rng.one_of(&[1, 2, 3]) {
        let k = maker.rng.below(known.len() as u64) as usize;
        maker.use_abbreviation(&mut body, k as u64 + 4, width, &known[k]);
    }
    maker.finish(&mut body, width);
    maker.enter(&mut bits, 2, 8, width, &body);
    bits
}

/// A single definition with one fault in it, at any place.
fn misdefined(rng: &mut Rng) -> Bits {
    let (mut maker, mut bits, mut body) = (Maker::new(rng, 0, 3), Bits::default(), Bits::default());
    let mut ops: Vec<Op> = (0..maker.rng.below(3)).map(|_| maker.scalar()).collect();
    let bad = [
        vec![Op::Array, Op::Blob],
        vec![Op::Array, Op::Array],
        vec![Op::Array],
        vec![Op::Blob, Op::Char6],
        vec![Op::Array, Op::Char6, Op::Char6],
        vec![Op::Fixed(0)],
        vec![Op::Fixed(33)],
        vec![Op::Vbr(0)],
        vec![Op::Vbr(33)],
        vec![Op::Vbr(256)],
        vec![Op::Fixed(289)],
        vec![Op::Array, Op::Vbr(33)],
        vec![Op::Array, Op::Fixed(0)],
        vec![Op::Raw(0)],
        vec![Op::Raw(6)],
        vec![Op::Array, Op::Raw(7)],
    ];
    ops.extend(&bad[maker.rng.below(bad.len() as u64) as usize]);
    let inside_info = maker.rng.chance(300);
    if inside_info {
        maker.record(&mut body, 3, 1, &[8]);
    }
    maker.id(&mut body, 2, 3);
    maker.define(&mut body, &ops);
    maker.finish(&mut body, 3);
    maker.enter(&mut bits, 2, if inside_info { 0 } else { 8 }, 3, &body);
    bits
}

/// Abbreviations of one literal each, so that every use tells which one was found.
struct Historian<'r> {
    maker: Maker<'r>,
    mark: u64,
}

impl Historian<'_> {
    fn define(&mut self, bits: &mut Bits, width: u64) {
        for _ in 0..self.maker.rng.one_of(&[1, 1, 2]) {
            bits.put(2, width);
            self.maker.define(bits, &[Op::Literal(self.mark)]);
            self.mark += 1;
        }
    }

    fn info(&mut self, bits: &mut Bits, outer: u64, around: u64) {
        let mut body = Bits::default();
        for _ in 0..self.maker.rng.one_of(&[1, 1, 2]) {
            let number = self.maker.rng.one_of(&[around, around, 8, 9, TOP]);
            self.maker.record(&mut body, 3, 1, &[number]);
            self.define(&mut body, 3);
        }
        self.maker.finish(&mut body, 3);
        self.maker.enter(bits, outer, 0, 3, &body);
    }

    fn block(&mut self, bits: &mut Bits, outer: u64, depth: u64) {
        let (mut body, number) = (Bits::default(), self.maker.rng.one_of(&[8, 8, 8, 9, TOP]));
        for _ in 0..1 + self.maker.rng.below(4) {
            match self.maker.rng.below(8) {
                0 | 1 => self.define(&mut body, 4),
                2..=5 => body.put(self.maker.rng.one_of(&[4, 4, 4, 5, 5, 6]), 4),
                6 => {
                    self.info(&mut body, 4, number);
                    body.put(self.maker.rng.one_of(&[4, 4, 5]), 4);
                }
                _ if depth < 3 => self.block(&mut body, 4, depth + 1),
                _ => {}
            }
        }
        self.maker.finish(&mut body, 4);
        self.maker.enter(bits, outer, number, 4, &body);
    }
}

fn historic(rng: &mut Rng) -> Bits {
    let mut historian = Historian { maker: Maker::new(rng, 0, 0), mark: 10 };
    let mut bits = Bits::default();
    for _ in 0..2 + historian.maker.rng.below(3) {
        if historian.maker.rng.chance(350) { historian.info(&mut bits, 2, 8) } else { historian.block(&mut bits, 2, 1) }
    }
    bits
}

/// Bodies by block number and fields: a negative field is the number of an item, in the block's width; 99 are chunks that all ask for more; any other
/// field has six bits.
#[rustfmt::skip]
const BRIMS: [(u64, &[i64]); 17] = [
    (0, &[-3, 9]), (0, &[-3, 9, 1]), (0, &[-3, 1, 1]), (0, &[-3, 1, 1, 8]), (0, &[-3, 1, 1, 8, -3, 2, 3, 32, 8]), (0, &[-3, 1, 1, 8, -3, 2, 3, 33]),
    (0, &[-3, 1, 1, 8, -3, 3, 1]), (0, &[-3, 1, 1, 8, -3, 3, 2, 5]), (0, &[-3, 2, 1]), (0, &[-3, 3, 0]), (0, &[-2]), (0, &[-3, 1, 1, 99]),
    (8, &[-3, 1, 2, 99]), (8, &[-3, 1, 2, 3]), (8, &[-3, 1, 2, 3, 4]), (8, &[-9]), (8, &[-3, 1]),
];

/// A body that ends with the last bit of a field, or in the midst of one: the block's width is tried until the body is whole words.
fn brimming(rng: &mut Rng) -> Bits {
    let more = rng.one_of(&[11, 12, 13, 13, 14, 15]);
    let ((number, fields), start) = (rng.one_of(&BRIMS), rng.below(31));
    let made = |width: u64| {
        let mut body = Bits::default();
        for &field in fields {
            match field {
                99 => (0..more).for_each(|_| body.put(63, 6)),
                0.. => body.put(field as u64, 6),
                _ => body.put(-field as u64, width),
            }
        }
        body
    };
    let widths: Vec<u64> = (0..31).map(|turn| 2 + (start + turn) % 31).collect();
    let width = widths.iter().copied().find(|&width| made(width).len % 32 == 0).unwrap_or(widths[0]);
    let (mut body, mut bits) = (made(width), Bits::default());
    body.align(1);
    Maker::new(rng, 0, 0).enter(&mut bits, 2, number, width, &body);
    bits
}

/// The top level alone, ending on any byte.
fn bare(rng: &mut Rng) -> Bits {
    let (mut maker, mut bits) = (Maker::new(rng, 0, 0), Bits::default());
    for _ in 0..1 + maker.rng.below(3) {
        match maker.rng.below(5) {
            0 => {
                let ops = maker.operands();
                bits.put(2, 2);
                maker.define(&mut bits, &ops);
            }
            1 => maker.info(&mut bits, 2, TOP),
            _ => maker.any_record(&mut bits, 2),
        }
    }
    bits
}

/// 30 to 34 open blocks, with something in the innermost one.
fn deep(rng: &mut Rng) -> Bits {
    let (levels, inside) = (30 + rng.below(5), rng.below(4));
    let (mut maker, mut body) = (Maker::new(rng, 0, 1), Bits::default());
    match inside {
        0 => maker.info(&mut body, 2, 8),
        1 => maker.any_record(&mut body, 2),
        2 => maker.enter(&mut body, 2, 77, 3, &Bits::default()),
        _ => {}
    }
    maker.finish(&mut body, 2);
    for level in 1..=levels {
        let mut around = Bits::default();
        maker.enter(&mut around, 2, 8 + level % 3, 2, &body);
        if level < levels {
            around.put(0, 2);
            around.align(0);
        }
        body = around;
    }
    body
}

/// 31 to 34: what comes to a limit of 32 from both sides.
fn about_32(rng: &mut Rng) -> u64 {
    rng.one_of(&[31, 32, 32, 33, 33, 34])
}

/// Local definitions at the top level and in a block, and in a second one where the first one's are free again.
fn crowded_local(rng: &mut Rng) -> Bits {
    let (total, mut bits, mut body) = (about_32(rng), Bits::default(), Bits::default());
    let mut maker = Maker::new(rng, 0, 0);
    let first = maker.rng.one_of(&[0, 1, 5, 20, total]);
    maker.definitions(&mut bits, 2, first);
    maker.definitions(&mut body, 3, total - first);
    maker.finish(&mut body, 3);
    (8..10).for_each(|number| maker.enter(&mut bits, 2, number, 3, &body));
    bits
}

/// Shared definitions, and a block that uses one.
fn crowded_shared(rng: &mut Rng) -> Bits {
    let (total, mut bits, mut body, mut using) = (about_32(rng), Bits::default(), Bits::default(), Bits::default());
    let mut maker = Maker::new(rng, 0, 0);
    let number = maker.rng.one_of(&[8, 9]);
    maker.record(&mut body, 3, 1, &[number]);
    maker.definitions(&mut body, 3, total);
    maker.finish(&mut body, 3);
    maker.enter(&mut bits, 2, 0, 3, &body);
    using.put(maker.rng.one_of(&[4, 19, 35, 36]), 6);
    maker.finish(&mut using, 6);
    maker.enter(&mut bits, 2, 8, 6, &using);
    bits
}

/// A definition of very many operands.
fn crowded_operands(rng: &mut Rng) -> Bits {
    let (total, mut bits, mut body) = (about_32(rng), Bits::default(), Bits::default());
    let mut maker = Maker::new(rng, 0, 0);
    let mut ops: Vec<Op> = (0..total - 2).map(|_| if maker.rng.chance(200) { maker.scalar() } else { Op::Literal(1) }).collect();
    ops.extend(maker.rng.one_of(&[[Op::Array, Op::Fixed(4)], [Op::Fixed(1), Op::Blob], [Op::Char6, Op::Char6]]));
    body.put(2, 3);
    maker.define(&mut body, &ops);
    maker.use_abbreviation(&mut body, 4, 3, &ops);
    maker.finish(&mut body, 3);
    maker.enter(&mut bits, 2, 8, 3, &body);
    bits
}

/// Numbers in too many chunks, at each place that a number can stand in.
fn overlong(rng: &mut Rng) -> Bits {
    let (mut maker, mut bits) = (Maker::new(rng, 0, 2), Bits::default());
    maker.faults = maker.rng.one_of(&[0, 0, 100]);
    let mut body = Bits::default();
    let width = maker.rng.one_of(&[2, 3, 5, 6, 9, 17, 22, 32]);
    body.put(2, 3);
    maker.define(&mut body, &[Op::Literal(1), Op::Vbr(width)]);
    body.put(4, 3);
    let most = 64u64.div_ceil(width - 1);
    let more = maker.rng.one_of(&[0, 1, most - 1, most, most + 1]);
    let value = maker.value();
    body.vbr_with(value, width, more.min(70));
    if maker.rng.chance(500) {
        (0..maker.rng.below(most + 2)).for_each(|_| body.put(u64::MAX, width));
        body.put(maker.rng.next(), width - 1);
        body.put(0, 1);
    }
    maker.finish(&mut body, 3);
    maker.enter(&mut bits, 2, 8, 3, &body);
    bits
}

/// A block without its END_BLOCK, whose last item is of any kind.
fn unended(rng: &mut Rng) -> Bits {
    let number = rng.one_of(&[8, 9, TOP, TOP, TOP - 1]);
    let (mut maker, mut bits, mut body) = (Maker::new(rng, 0, 2), Bits::default(), Bits::default());
    match maker.rng.below(4) {
        0 => maker.block(&mut body, 3, 4),
        1 => {
            body.put(2, 3);
            maker.define(&mut body, &[Op::Literal(5), Op::Blob]);
            maker.use_abbreviation(&mut body, 4, 3, &[Op::Literal(5), Op::Blob]);
        }
        2 => maker.info(&mut body, 3, number),
        _ => {}
    }
    let width = maker.rng.one_of(&[3, 3, 3, 0, 33]);
    maker.enter(&mut bits, 2, number, width, &body);
    bits
}

/// A payload that its body has no room for, and what the Rust finds behind it.
fn cut_payload(rng: &mut Rng) -> Bits {
    let (mut maker, mut bits, mut body) = (Maker::new(rng, 0, 2), Bits::default(), Bits::default());
    let ops =
        maker.rng.one_of(&[[Op::Fixed(3), Op::Array, Op::Fixed(8)], [Op::Literal(2), Op::Array, Op::Char6], [Op::Vbr(6), Op::Array, Op::Vbr(6)]]);
    let ops = if maker.rng.chance(400) { vec![Op::Literal(3), Op::Blob] } else { ops.to_vec() };
    body.put(2, 3);
    maker.define(&mut body, &ops);
    body.put(4, 3);
    ops.iter().take_while(|op| !matches!(op, Op::Array | Op::Blob)).for_each(|&op| maker.put_scalar(&mut body, op));
    let length = maker.rng.one_of(&[4, 9, 20, 63, 1 << 20, 1 << 40]);
    maker.vbr(&mut body, length, 6);
    if maker.rng.chance(300) {
        body.align(0);
    }
    (0..maker.rng.below(8)).for_each(|_| body.put(maker.rng.next(), 6));
    if maker.rng.chance(500) {
        maker.finish(&mut body, 3)
    } else {
        body.align(maker.rng.below(2))
    }
    maker.enter(&mut bits, 2, 8, 3, &body);
    maker.any_record(&mut bits, 2);
    bits
}

/// About as many events, or as many operands, as the program replay's stores hold, out of very few bits.
fn filling(rng: &mut Rng) -> Bits {
    let (mut maker, mut bits, mut body) = (Maker::new(rng, 0, 0), Bits::default(), Bits::default());
    body.put(2, 3);
    if maker.rng.chance(300) {
        maker.define(&mut body, &[Op::Literal(1)]);
        (0..maker.rng.one_of(&[1021, 1022, 1023, 1024])).for_each(|_| body.put(4, 3));
    } else {
        maker.define(&mut body, &[Op::Literal(1), Op::Array, Op::Literal(2)]);
        body.put(4, 3);
        let length = maker.rng.one_of(&[1023, 1024, 1025, 8191, 8192, 8193]);
        maker.vbr(&mut body, length, 6);
    }
    maker.finish(&mut body, 3);
    maker.enter(&mut bits, 2, 8, 3, &body);
    bits
}

fn noise(rng: &mut Rng) -> Bits {
    let mut bits = Bits::default();
    (0..rng.below(25)).for_each(|_| bits.put(rng.next(), 8));
    bits
}

#[rustfmt::skip]
const KINDS: [Kind; 42] = [
    sound, sound, sound, sound, sound, faulty, faulty, faulty, faulty, faulty, faulty, informed, informed, informed, informed, informed,
    using, using, using, using, using, using, using, misdefined, misdefined, historic, historic, historic, historic, brimming, brimming,
    bare, bare, deep, crowded_local, crowded_shared, crowded_operands, overlong, unended, cut_payload, filling, noise,
];

/// The magic before the stream, or a wrapper around both, good or bad.
fn wrap(rng: &mut Rng, stream: &[u8]) -> Vec<u8> {
    let magic = if rng.chance(40) { (rng.next() as u32).to_le_bytes() } else { MAGIC };
    let plain = [&magic, stream].concat();
    if !rng.chance(80) {
        return plain;
    }
    let fault = rng.below(10);
    let behind = vec![0; rng.below(5) as usize];
    let (before, mut size) = (rng.one_of(&[0, 0, 4, 7]), plain.len() as u64);
    let mut offset = 20 + before;
    match fault {
        0 => size += behind.len() as u64 + rng.one_of(&[1, 4, 1 << 31]),
        1 => size = rng.one_of(&[0, 3, 4, 5, 8]),
        2 => {
            offset = rng.one_of(&[0, 4, 16, 19, TOP]);
            size = size.min(24);
        }
        _ => {}
    }
    let words = [WRAPPER, rng.below(3), offset, size, rng.next()].map(|word| (word as u32).to_le_bytes());
    let mut input = [words.concat(), vec![0; before as usize], plain, behind].concat();
    if fault == 3 {
        input.truncate(rng.below(24) as usize);
    }
    input
}

/// Bits turned, an end cut off, or bytes put behind.
fn damage(rng: &mut Rng, input: &mut Vec<u8>) {
    match rng.below(4) {
        0 | 1 if input.len() > 4 => {
            for _ in 0..1 + rng.below(3) {
                let bit = 32 + rng.below(8 * input.len() as u64 - 32);
                input[bit as usize / 8] ^= 1 << (bit % 8);
            }
        }
        2 => input.truncate(rng.below(input.len() as u64 + 1) as usize),
        _ => (0..1 + rng.below(8)).for_each(|_| input.push(rng.next() as u8)),
    }
}

const SKIPS: [&[u64]; 11] = [&[], &[], &[], &[], &[0], &[8], &[8], &[9, 0], &[200, 9], &[10, 1, 8], &[TOP, TOP + 9]];

/// How many numbers the stores have: mostly ample, at times just enough, or short.
fn sizes(rng: &mut Rng, input: &[u8], skip: &[u64]) -> (usize, usize) {
    let ample = (8 * (16 + 2 * input.len()), 1024);
    if !rng.chance(120) {
        return ample;
    }
    let outcome = rules::walk(input, skip, ample.0, ample.1, 0);
    let short = |rng: &mut Rng, held: usize| held.saturating_sub(rng.one_of(&[0, 0, 1, 2, 8, 9])) + rng.one_of(&[0, 0, 1, 7]);
    let (events, operands) = (short(rng, 8 * outcome.events.len()), short(rng, outcome.operands.len()));
    if rng.chance(500) { (events, ample.1) } else { (ample.0, operands) }
}

/// The input of a number under a seed.
pub fn case(seed: u64, index: u64) -> Case {
    let rng = &mut Rng::new(seed, index);
    let stream = rng.one_of(&KINDS)(rng).into_bytes();
    let mut input = wrap(rng, &stream);
    if rng.chance(180) {
        damage(rng, &mut input);
    }
    let skip = rng.one_of(&SKIPS).to_vec();
    let (events, operands) = sizes(rng, &input, &skip);
    Case { input, skip, events, operands }
}
