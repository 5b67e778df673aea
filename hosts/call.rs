//! call BLOCK COLOUR: converts the block of a file with the slices that sitemesh lends, by the wrapper, and with a colour
//! for missing entries (grey, white, or four words as hexadecimal digits, parted by commas); prints the first line that
//! sitemesh prints, and each vertex's colour as sitemesh does; looks at the guards before and behind every slice.
mod sitemesh;

use sitemesh::{convert, Call, Colour, Lent, GREY, WHITE};

const GUARD: usize = 64;
const WORD: u32 = 0x5a5a_5a5a;

fn words(n: usize) -> Vec<u32> {
    vec![WORD; n + 2 * GUARD]
}

fn floats(n: usize) -> Vec<f32> {
    vec![f32::from_bits(WORD); n + 2 * GUARD]
}

fn middle<T>(all: &mut [T]) -> &mut [T] {
    let end = all.len() - GUARD;
    &mut all[GUARD..end]
}

/// How many elements, guards and all, are not what they were.
fn changed_around<T: Copy>(all: &[T], made: usize, bits: fn(T) -> u32) -> usize {
    let kept = all[..GUARD].iter().chain(&all[GUARD + made..]);
    kept.filter(|x| bits(**x) != WORD).count()
}

// The layout that the archive has: four words in a row.
const _: () = assert!(size_of::<Call>() == 16 && align_of::<Call>() == 4);

fn colour_of(word: &str) -> Colour {
    match word {
        "grey" => GREY,
        "white" => WHITE,
        _ => {
            let words: Vec<u32> = word.split(',').map(|w| u32::from_str_radix(w, 16).expect("a word")).collect();
            let [r, g, b, a] = words[..] else { panic!("a colour has four words") };
            Colour { r, g, b, a }
        }
    }
}

fn main() {
    let mut words_given = std::env::args().skip(1);
    let path = words_given.next().expect("a block's file");
    let colour = colour_of(&words_given.next().expect("a colour"));
    let block = std::fs::read(path).expect("the block is read");
    let (mut positions, mut normals, mut colours, mut textures) = (floats(768), floats(768), floats(1024), floats(512));
    let (mut sources, mut indices, mut work, mut scratch) = (words(256), words(768), words(4104), floats(4104));
    let lent = Lent {
        positions: middle(&mut positions),
        normals: middle(&mut normals),
        colours: middle(&mut colours),
        textures: middle(&mut textures),
        sources: middle(&mut sources),
        indices: middle(&mut indices),
        words: middle(&mut work),
        floats: middle(&mut scratch),
    };
    let (v, n, cleared) = match convert(Call { colour }, &block, lent) {
        Ok(m) => {
            println!("mesh {} {} {} {} {}", m.vertices, m.indices, m.solid as u8, m.unlit as u8, m.has_colors as u8);
            for c in colours[GUARD..][..4 * m.vertices].chunks(4).take_while(|_| m.has_colors) {
                let [r, g, b, a] = [c[0], c[1], c[2], c[3]].map(f32::to_bits);
                println!("c {r:08x} {g:08x} {b:08x} {a:08x}");
            }
            (m.vertices, m.indices, 4104)
        }
        Err(refusal) => {
            println!("no {}", refusal as u32);
            (0, 0, 0)
        }
    };
    assert_eq!(changed_around(&positions, 3 * v, f32::to_bits), 0, "positions");
    assert_eq!(changed_around(&normals, 3 * v, f32::to_bits), 0, "normals");
    assert_eq!(changed_around(&colours, 4 * v, f32::to_bits), 0, "colours");
    assert_eq!(changed_around(&textures, 2 * v, f32::to_bits), 0, "textures");
    assert_eq!(changed_around(&sources, v, |x| x), 0, "sources");
    assert_eq!(changed_around(&indices, n, |x| x), 0, "indices");
    assert_eq!(changed_around(&work, cleared, |x| x), 0, "words");
    assert_eq!(changed_around(&scratch, cleared, f32::to_bits), 0, "floats");
}
