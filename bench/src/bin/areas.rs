//! For each file, what it gets with lent areas of several lengths: none, the nodes' one word short, the cells' one word short, both
//! exact.

use std::{env, fs, path::Path};

use digarumbi_bench::{
    line::line,
    member::{read_member, Answer, CELL_WORDS, NODE_WORDS},
};

fn counts(answer: &Answer) {
    println!("{}", line(answer));
    println!("{} {}", answer.node_count, answer.cell_count);
}

fn areas(member: &[u8], node_words: usize, cell_words: usize) -> Answer {
    let answer = read_member(member, &mut vec![0; node_words], &mut vec![0; cell_words]);
    counts(&answer);
    answer
}

fn main() -> std::io::Result<()> {
    for path in env::args().skip(1) {
        let member = fs::read(&path)?;
        println!("{}", Path::new(&path).file_name().unwrap_or_default().to_string_lossy());
        let answer = areas(&member, 0, 0);
        let nodes = NODE_WORDS * answer.node_count as usize;
        let cells = CELL_WORDS * answer.cell_count as usize;
        areas(&member, nodes.saturating_sub(1), cells);
        areas(&member, nodes, cells.saturating_sub(1));
        areas(&member, nodes, cells);
    }
    Ok(())
}
