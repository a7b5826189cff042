//! Many questions for one package, through the C entry.

use crate::answer::Found;

/// Code 0: so many words of answers. Else the refusal, with 0.
#[repr(C)]
struct Written {
    code: u32,
    length: usize,
}

extern "C" {
    fn barthovin_lookup_batch(
        package: *const u8,
        package_length: usize,
        version: u32,
        questions: *const u32,
        questions_length: usize,
        answers: *mut u32,
        answers_length: usize,
    ) -> Written;
}

/// The most questions of one call.
pub const MOST: usize = 1_024;
/// The words of a question and of an answer.
pub const QUESTION: usize = 3;
pub const ANSWER: usize = 4;

/// Kind 4, and the bits that table and section have.
const KIND: u32 = 4 << 28;
const BITS: u32 = 4;

/// The words of a question; none where the table or the section has no room in them.
pub fn question(table: u32, section: u32, identity: u64) -> Option<[u32; QUESTION]> {
    let fits = table >> BITS == 0 && section >> BITS == 0;
    fits.then_some([KIND | section << BITS | table, identity as u32, (identity >> 32) as u32])
}

/// Answers questions in words: code and length in words. After it the answers hold so many words and zeros, or zeros only.
pub fn answer_words(package: &[u8], version: u32, questions: &[u32], answers: &mut [u32]) -> (u32, usize) {
    // The entry reads and writes the slices that it is lent, and nothing else.
    let Written { code, length } = unsafe {
        let (q, a) = (questions.as_ptr(), answers.as_mut_ptr());
        barthovin_lookup_batch(package.as_ptr(), package.len(), version, q, questions.len(), a, answers.len())
    };
    (code, length)
}

/// Answers questions of any number, so many in a call as it takes.
pub fn lookup(package: &[u8], version: u32, questions: &[[u32; QUESTION]]) -> Vec<Found> {
    let mut found = Vec::new();
    for chunk in questions.chunks(MOST) {
        let mut answers = vec![0; ANSWER * chunk.len()];
        let told = answer_words(package, version, chunk.as_flattened(), &mut answers);
        assert_eq!(told, (0, ANSWER * chunk.len()), "well formed questions are refused");
        found.extend(answers.chunks(ANSWER).map(|answer| found_by(answer, package.len())));
    }
    found
}

/// Checks what every answer promises besides: zeros where nothing is found, and a part that lies in the package.
fn found_by(answer: &[u32], most: usize) -> Found {
    let [code, start, length, looks] = [0, 1, 2, 3].map(|i| answer[i] as usize);
    assert!(start + length <= most, "a part that ends outside the package");
    assert!(code == 0 || (start, length) == (0, 0), "a place where nothing is found");
    assert!(code < 2 || looks == 0, "looks of a refusal");
    match code {
        0 => Found::Part { start, length, looks },
        1 => Found::Absent(looks),
        number => Found::Refused(number as u32),
    }
}
