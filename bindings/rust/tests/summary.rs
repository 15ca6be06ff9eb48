//! Summaries beside pages: the examples of request 2026-04, each with all of its cells; the order of
//! refusals, and that a refusal leaves every cell and the count as they were.
use yultarvas::{add_word, check_summary, parse_page, raw, summarise, Refused, PAGE_BLOCKS, PAGE_SUMMARY};

const HIGH: u64 = 0x8e03; // 5, and 23 times 1
const LOW: u64 = 0x8800f00101; // 23 times -1, and -5
const BEFORE: usize = 77; // in the cell of the count, where a call should not write

fn page(words: &[u64]) -> Vec<u8> {
    let mut text = format!("format=tetra-page\nnum=128\ncount={}\n", words.len());
    for word in words {
        text += &format!("word={word:012x}\n");
    }
    text.into_bytes()
}

type Left = (u32, usize, Vec<i32>);

fn refused(number: u32, cells: &[i32]) -> Left {
    (number, BEFORE, cells.to_vec())
}

fn accepted(blocks: usize, rows: &[[i32; 4]], behind: &[i32]) -> Left {
    (0, blocks, [rows.concat(), behind.to_vec()].concat())
}

// The safe call says the same, and leaves the same cells.
fn alike(left: Left, safe: Result<usize, Refused>, cells: Vec<i32>) -> Left {
    assert_eq!(cells, left.2);
    match safe {
        Ok(blocks) => assert_eq!((0, blocks), (left.0, left.1)),
        Err(refused) => assert_eq!((refused.number(), BEFORE), (left.0, left.1)),
    }
    left
}

fn summarised(text: &[u8], cells: &[i32]) -> Left {
    let (mut rows, mut blocks, mut again) = (cells.to_vec(), BEFORE, cells.to_vec());
    let number = unsafe {
        raw::yultarvas_summarise(
            text.as_ptr(),
            text.len(),
            rows.as_mut_ptr(),
            rows.len(),
            &mut blocks,
        )
    };
    let safe = summarise(text, &mut again);
    alike((number, blocks, rows), safe, again)
}

fn added(text: &[u8], word: u64, cells: &[i32]) -> Left {
    let (mut rows, mut blocks, mut again) = (cells.to_vec(), BEFORE, cells.to_vec());
    let number = unsafe {
        raw::yultarvas_add_word(
            text.as_ptr(),
            text.len(),
            word,
            rows.as_mut_ptr(),
            rows.len(),
            &mut blocks,
        )
    };
    let safe = add_word(text, word, &mut again);
    alike((number, blocks, rows), safe, again)
}

// The summary of a page, which the page accepts.
fn summary(words: &[u64]) -> Vec<i32> {
    let mut rows = vec![7; 4 * (words.len() + 1)];
    assert_eq!(summarise(&page(words), &mut rows), Ok(words.len()));
    assert_eq!(check_summary(&page(words), &rows), Ok(()));
    rows
}

// R: a page of one block has its row twice.
#[test]
fn rows() {
    let known = [
        (0, [0, 0, 0, 0]),
        (1, [32, 1, -3, 1]),
        (HIGH, [48, 5, 1, 1]),
        (LOW, [48, -1, -5, 1]),
        (0x3800, [32, 4, 0, 0]),
        (0xffffffffffff, [256, 7, -5, 1]),
        (0x800000000000, [0, 0, 0, 0]),
    ];
    for (word, row) in known {
        assert_eq!(
            summarised(&page(&[word]), &[9; 9]),
            accepted(1, &[row, row], &[9]),
            "{word:012x}"
        );
        assert_eq!(
            added(&page(&[]), word, &[0, 0, 0, 0, 9, 9, 9, 9]),
            accepted(1, &[row, row], &[])
        );
    }
    let words = known.map(|(word, _)| word);
    let mut all = vec![[416, 7, -5, 4]];
    all.extend(known.map(|(_, row)| row));
    assert_eq!(summarised(&page(&words), &[9; 32]), accepted(7, &all, &[]));
}

#[test]
fn summaries() {
    let one = [32, 1, -3, 1];
    // S1
    assert_eq!(summarised(&page(&[]), &[7; 4]), accepted(0, &[[0; 4]], &[]));
    assert_eq!(summarised(&page(&[]), &[7; 3]), refused(8, &[7; 3]));
    // S2
    assert_eq!(summarised(&page(&[1]), &[7; 8]), accepted(1, &[one, one], &[]));
    assert_eq!(summarised(&page(&[1]), &[7; 7]), refused(8, &[7; 7]));
    // S3
    assert_eq!(
        summarised(&page(&[0, 1, 0x3800]), &[7; 17]),
        accepted(3, &[[64, 4, -3, 1], [0; 4], one, [32, 4, 0, 0]], &[7])
    );
    // S4
    assert_eq!(
        summarised(&page(&[1 << 47 | 1]), &[7; 8]),
        accepted(1, &[one, one], &[])
    );
    // S5
    let text = page(&[1]);
    assert_eq!(summarised(&text[..text.len() - 1], &[]), refused(9, &[]));
    assert_eq!(summarised(&text[..text.len() - 1], &[7; 9]), refused(9, &[7; 9]));
}

#[test]
fn words_added() {
    let (one, high, low) = ([32, 1, -3, 1], [48, 5, 1, 1], [48, -1, -5, 1]);
    // A1, A2: the first word of a page gives the page's row, in which no zero is left
    let empty = page(&[]);
    assert_eq!(
        added(&empty, HIGH, &[0, 0, 0, 0, 7, 7, 7, 7, 7, 7]),
        accepted(1, &[high, high], &[7, 7])
    );
    assert_eq!(
        added(&empty, LOW, &[0, 0, 0, 0, 7, 7, 7, 7]),
        accepted(1, &[low, low], &[])
    );
    // A3, A4: bits 63, 47 and 0
    let (zero, word) = (page(&[0]), 0x8000800000000001);
    let mut cells = [0; 13];
    cells[8..].fill(9);
    assert_eq!(added(&zero, word, &cells), accepted(2, &[one, [0; 4], one], &[9]));
    assert_eq!(added(&zero, word, &cells[..11]), refused(8, &cells[..11]));
    // A5, A6
    let mut cells = [0; 12];
    cells[3] = 1;
    assert_eq!(added(&zero, word, &cells), refused(14, &cells));
    assert_eq!(added(&zero, word, &cells[..8]), refused(8, &cells[..8]));
    // A7
    assert_eq!(added(&page(&[1; 64]), 0, &[]), refused(9, &[]));
    // A8
    let mut cells = summary(&[1; 63]);
    cells.extend([7; 4]);
    let mut rows = vec![[2064, 1, -5, 64]];
    rows.extend([one; 63]);
    rows.push(low);
    let left = added(&page(&[1; 63]), LOW, &cells);
    assert_eq!(left, accepted(64, &rows, &[]));
    assert_eq!(left.2.len(), PAGE_SUMMARY);
}

#[test]
fn checks() {
    let text = page(&[0, 1]);
    let rows = [32, 1, -3, 1, 0, 0, 0, 0, 32, 1, -3, 1, 7];
    let mut other = rows;
    other[11] = 0;
    assert_eq!(check_summary(&text, &rows), Ok(()));
    assert_eq!(check_summary(&text, &rows[..12]), Ok(()));
    assert_eq!(check_summary(&text, &other), Err(Refused::Disagrees));
    assert_eq!(check_summary(&text, &rows[..11]), Err(Refused::NoRoom));
    assert_eq!(check_summary(b"", &[]), Err(Refused::NoPage));
    assert_eq!(
        check_summary(&page(&[LOW]), &[48, 0, -5, 1, 48, -1, -5, 1]),
        Err(Refused::Disagrees)
    );
}

// Where two numbers would fit: 9, then 8, then 14.
#[test]
fn order() {
    let (text, full, rows) = (page(&[1]), page(&[1; PAGE_BLOCKS]), summary(&[1; PAGE_BLOCKS]));
    let cut = &text[..text.len() - 1];
    assert_eq!(summarised(cut, &[7; 3]), refused(9, &[7; 3]));
    assert_eq!(added(cut, 0, &[7; 3]), refused(9, &[7; 3]));
    assert_eq!(added(cut, 0, &[7; 300]), refused(9, &[7; 300]));
    assert_eq!(check_summary(cut, &[7; 300]), Err(Refused::NoPage));
    assert_eq!(check_summary(&text, &[7; 7]), Err(Refused::NoRoom));
    assert_eq!(added(&text, 0, &[7; 11]), refused(8, &[7; 11]));
    assert_eq!(added(&text, 0, &[7; 12]), refused(14, &[7; 12]));
    // a full page, with its summary, with room for a block more, and with neither
    assert_eq!(added(&full, 0, &rows), refused(9, &rows));
    let wider = [rows, vec![7; 4]].concat();
    assert_eq!(added(&full, 0, &wider), refused(9, &wider));
    assert_eq!(added(&full, 0, &[7; 264]), refused(9, &[7; 264]));
    assert_eq!(added(&full, 0, &[7; 8]), refused(9, &[7; 8]));
}

// Each cell of a summary by itself makes it another.
#[test]
fn every_cell() {
    let words = [HIGH, 0, LOW, 0x3800, 0xffffffffffff];
    let (text, rows) = (page(&words), summary(&words));
    for at in 0..rows.len() {
        for change in [-1, 1, i32::MIN] {
            let mut cells = [rows.clone(), vec![7; 4]].concat();
            cells[at] ^= change;
            assert_eq!(check_summary(&text, &cells), Err(Refused::Disagrees));
            assert_eq!(added(&text, 1, &cells), refused(14, &cells));
        }
    }
}

// From the empty page word by word to the full one: each time the summary is that of the longer page, worked
// out afresh, and the old blocks' rows and the cells behind stay.
#[test]
fn grown() {
    let (mut words, mut state) = (Vec::new(), 1u64);
    let mut cells = [7; PAGE_SUMMARY + 3];
    cells[..4].fill(0);
    while words.len() < PAGE_BLOCKS {
        state = state
            .wrapping_mul(6364136223846793005)
            .wrapping_add(1442695040888963407);
        let (text, n) = (page(&words), words.len());
        words.push(state & 0xffffffffffff);
        let longer = page(&words);
        assert_eq!(parse_page(&longer).unwrap().words(), words);
        let (number, blocks, rows) = added(&text, state, &cells);
        assert_eq!((number, blocks), (0, n + 1));
        assert_eq!(rows[..4 * (n + 2)], summary(&words));
        assert_eq!(rows[4..4 * (n + 1)], cells[4..4 * (n + 1)]);
        assert!(rows[4 * (n + 2)..].iter().all(|c| *c == 7));
        assert_eq!(check_summary(&longer, &rows), Ok(()));
        assert_eq!(check_summary(&text, &rows), Err(Refused::Disagrees));
        cells.copy_from_slice(&rows);
    }
    assert_eq!(added(&page(&words), 1, &cells), refused(9, &cells));
}

// A word of which the point is all zeros can leave the page's row, and then the text of before still agrees.
#[test]
fn origin_added() {
    for word in [0, 1 << 47] {
        let (_, blocks, rows) = added(&page(&[1]), word, &[32, 1, -3, 1, 32, 1, -3, 1, 7, 7, 7, 7]);
        assert_eq!(
            (blocks, &rows[..4], &rows[8..]),
            (2, &[32, 1, -3, 1][..], &[0; 4][..])
        );
        assert_eq!(check_summary(&page(&[1, word]), &rows), Ok(()));
        assert_eq!(check_summary(&page(&[1]), &rows), Ok(()));
    }
    let (_, _, rows) = added(&page(&[HIGH]), 0, &[48, 5, 1, 1, 48, 5, 1, 1, 7, 7, 7, 7]);
    assert_eq!(rows[..4], [48, 5, 0, 1]);
    assert_eq!(check_summary(&page(&[HIGH]), &rows), Err(Refused::Disagrees));
}
