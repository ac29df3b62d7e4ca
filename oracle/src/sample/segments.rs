//! A table as segments: cells one by one, or cells picked from a palette by numbers that look random. A palette of one is a run.
use std::fmt::Write;

#[derive(Clone, Debug)]
pub enum Segment {
    Copy(Vec<usize>),
    Pick { cells: usize, seed: usize, palette: Vec<usize> },
}

/// As the replay steps its seed.
fn next_seed(seed: usize) -> usize {
    (seed % 2_147_483_648 * 1_103_515_245 + 12_345) % 2_147_483_648
}

impl Segment {
    pub fn run(cells: usize, cell: usize) -> Segment {
        Segment::Pick { cells, seed: 0, palette: vec![cell] }
    }

    fn expand(&self, into: &mut Vec<usize>) {
        match self {
            Segment::Copy(cells) => into.extend(cells),
            Segment::Pick { cells, seed, palette } => {
                let mut seed = *seed;
                for _ in 0..*cells {
                    seed = next_seed(seed);
                    into.push(palette[seed / 65_536 % palette.len()]);
                }
            }
        }
    }

    fn write(&self, text: &mut String) {
        match self {
            Segment::Copy(cells) => {
                write!(text, ",{},0", cells.len()).expect("text");
                cells.iter().for_each(|cell| write!(text, ",{cell}").expect("text"));
            }
            Segment::Pick { cells, seed, palette } => {
                write!(text, ",{cells},1,{seed},{}", palette.len()).expect("text");
                palette.iter().for_each(|cell| write!(text, ",{cell}").expect("text"));
            }
        }
    }
}

pub fn expand(segments: &[Segment]) -> Vec<usize> {
    let mut cells = Vec::new();
    segments.iter().for_each(|segment| segment.expand(&mut cells));
    cells
}

/// A table's words, each with a comma before it: the number of segments, and they.
pub fn write(segments: &[Segment], text: &mut String) {
    write!(text, ",{}", segments.len()).expect("text");
    segments.iter().for_each(|segment| segment.write(text));
}

/// Segments of cells that are there already: long runs, and the rest one by one.
pub fn of(cells: &[usize]) -> Vec<Segment> {
    const LONG: usize = 8;
    let mut segments = Vec::new();
    let mut plain: Vec<usize> = Vec::new();
    let mut at = 0;
    while at < cells.len() {
        let same = cells[at..].iter().take_while(|&&cell| cell == cells[at]).count();
        if same < LONG {
            plain.extend(&cells[at..at + same]);
        } else {
            if !plain.is_empty() {
                segments.push(Segment::Copy(std::mem::take(&mut plain)));
            }
            segments.push(Segment::run(same, cells[at]));
        }
        at += same;
    }
    if !plain.is_empty() {
        segments.push(Segment::Copy(plain));
    }
    segments
}
