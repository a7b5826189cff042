//! Many questions through C: the answer and every word of the answers as the vectors say and as the reference has it, whatever they
//! held before; and each is what the single lookup answers.

use barthovin::answer::Found;
use barthovin::batch::{answer_words, lookup, question, MOST};
use barthovin::ffi;
use kit::generate::{call, question as some_question, Random};
use kit::reference::{number as number_at, pack, Bundle, Packed};
use kit::vectors::{bytes, lines, number};

const MARGIN: usize = 16;

/// One call over junk, compared with what is wanted; words following the answers are zero, and around them nothing is touched.
fn compare(package: &[u8], version: u32, questions: &[u32], lent: usize, wanted: &Result<Vec<u32>, u32>) -> u32 {
    let junk = |at: usize| (at as u32).wrapping_mul(0x9E37_79B9) | 1;
    let mut memory: Vec<u32> = (0..lent + 2 * MARGIN).map(junk).collect();
    let (code, length) = answer_words(package, version, questions, &mut memory[MARGIN..MARGIN + lent]);
    let (told, mut left) = match wanted {
        Ok(words) => ((0, words.len()), words.clone()),
        Err(number) => ((*number, 0), Vec::new()),
    };
    left.resize(lent, 0);
    assert_eq!((code, length), told, "for {questions:X?}, {lent} words, version {version}, {package:02X?}");
    assert_eq!(
        memory[MARGIN..MARGIN + lent],
        left,
        "for {questions:X?}, {lent} words, version {version}, {package:02X?}"
    );
    let around = (0..MARGIN).chain(MARGIN + lent..memory.len());
    assert!(around.into_iter().all(|at| memory[at] == junk(at)), "memory beside what was lent is changed");
    code
}

fn words(text: &str) -> Vec<u32> {
    text.trim_start_matches('-')
        .split(',')
        .filter(|w| !w.is_empty())
        .map(|w| u32::from_str_radix(w, 16).expect("a word"))
        .collect()
}

#[test]
fn vectors() {
    let mut seen = 0;
    for line in lines(include_str!("vectors/batch.txt")) {
        let parts: Vec<&str> = line.split_whitespace().collect();
        let ["batch", package, version, questions, lent, "=", kind, answer] = parts[..] else { panic!("{line}") };
        let (package, questions) = (bytes(package).expect("bytes"), words(questions));
        let (version, lent) = (number(version).expect("a number") as u32, number(lent).expect("a number") as usize);
        let wanted = match kind {
            "refused" => Err(number(answer).expect("a number") as u32),
            _ => Ok(words(answer)),
        };
        assert_eq!(kit::batch::batch(&package, version, &questions, lent), wanted, "the reference, for {line}");
        compare(&package, version, &questions, lent, &wanted);
        seen += 1;
    }
    assert_eq!(seen, 218);
}

/// A question about a package, good most often.
fn question_words(random: &mut Random, package: &[u8]) -> [u32; 3] {
    let asked = some_question(random, package);
    let kind = if random.one_in(60) { random.any() as u32 } else { 0x4000_0000 };
    let (table, code) = (random.pick(&[1, 1, 2, 2, asked.table & 15]), random.below(16) as u32);
    let code = if random.one_in(4) { code } else { random.between(1, 10) as u32 };
    [kind | code << 4 | table, asked.identity as u32, (asked.identity >> 32) as u32]
}

/// The same package with rows whose parts end outside their sections.
fn with_parts_outside(package: &[u8]) -> Vec<u8> {
    let mut changed = package.to_vec();
    let Some(read) = Bundle::read(package) else { return changed };
    for section in read.objects.iter().flat_map(|o| &o.sections).filter(|s| s.code >= 12) {
        let field = |at| number_at(section.bytes, at, 4, read.big).unwrap_or(0) as usize;
        // The sizes are the last words of an index: columns times units.
        let (sizes, end) = (4 * field(4) * field(8), section.start + section.bytes.len());
        if let Some(sizes) = end.checked_sub(sizes).and_then(|start| changed.get_mut(start..end)) {
            sizes.fill(0x7F);
        }
    }
    changed
}

#[test]
fn generated_lists() {
    let mut random = Random::new(80);
    let mut told = [0; 39];
    for _ in 0..8_000 {
        let c = call(&mut random);
        let Packed::Made(package) = pack(&c.bundle, c.work, c.output) else { continue };
        let mut asked = some_question(&mut random, &package);
        if random.one_in(4) {
            asked.package = with_parts_outside(&package);
        }
        let count = random.below(12) as usize;
        let mut questions: Vec<u32> = (0..count).flat_map(|_| question_words(&mut random, &package)).collect();
        if random.one_in(20) {
            questions.truncate(random.below(questions.len() as u64 + 1) as usize);
        }
        let needed = 4 * count;
        let lent = random.pick(&[needed, needed, needed + 9, needed.saturating_sub(1)]);
        let wanted = kit::batch::batch(&asked.package, asked.version, &questions, lent);
        let code = compare(&asked.package, asked.version, &questions, lent, &wanted);
        told[code as usize] += 1;
        wanted.unwrap_or_default().chunks(4).for_each(|answer| told[answer[0] as usize] += 1);
    }
    assert!([0, 1, 21, 22, 23, 24, 38].iter().all(|code| told[*code] > 100), "{told:?}");
}

/// Each answer is the single lookup's, however many there are.
#[test]
fn each_is_the_single_lookups() {
    let mut random = Random::new(81);
    let mut seen = 0;
    for _ in 0..300 {
        let c = call(&mut random);
        let Packed::Made(package) = pack(&c.bundle, c.work, c.output) else { continue };
        let version = if package.get(4) == Some(&4) { 2 } else { 5 };
        let asked: Vec<(u32, u32, u64)> = (0..random.below(2_500))
            .map(|_| (random.below(3) as u32, random.below(12) as u32, some_question(&mut random, &package).identity))
            .collect();
        let questions: Vec<[u32; 3]> = asked.iter().map(|(t, s, i)| question(*t, *s, *i).expect("it fits")).collect();
        for ((table, section, identity), found) in asked.iter().zip(lookup(&package, version, &questions)) {
            assert_eq!(found, ffi::lookup(&package, version, *table, *identity, *section));
            seen += usize::from(matches!(found, Found::Part { .. }));
        }
    }
    assert!(seen > 1_000, "{seen}");
}

#[test]
fn at_most_1024_questions() {
    let package: Vec<u8> = [0xF000_0000u32, 0x3000_0002].iter().flat_map(|w| w.to_le_bytes()).collect();
    for (count, wanted) in [(MOST - 1, 0), (MOST, 0), (MOST + 1, 38), (2 * MOST, 38)] {
        let questions = [0x4000_0011, 1, 0].repeat(count);
        let answer = kit::batch::batch(&package, 5, &questions, 4 * count);
        assert_eq!(compare(&package, 5, &questions, 4 * count, &answer), wanted);
        let short = if wanted == 0 { Err(38) } else { answer };
        assert_eq!(compare(&package, 5, &questions, 4 * count - 1, &short), 38);
    }
}
