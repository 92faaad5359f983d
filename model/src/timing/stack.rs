//! How much stack the calls take: a thread paints its stack, makes a call, and looks how far down
//! the paint is gone.
//!
//! So what counts is what the call wrote: the part of a deepest frame that nothing is written to
//! does not. The call from here, some hundred bytes, counts too.

use super::cases::{long_file, short_files};
use super::sides::{Library, Model, Side, Way};
use std::hint::black_box;
use std::io;
use std::panic::resume_unwind;
use std::thread::{scope, Builder};

/// How many bytes are painted; the thread has twice as much.
const PAINTED: usize = 1 << 20;
const PAINT: u8 = 0xA5;

/// Measures each way of asking on both sides, and gives a table in Markdown.
pub fn table() -> io::Result<String> {
    let mut files = short_files();
    files.extend([long_file(), vec![0]]);
    let (mut library, mut model) = (Library::new(), Model::new());
    let mut text = String::from("Bytes of stack that are written to, at most.\n\n");
    text += "| call | library | model |\n|---|---:|---:|\n";
    for way in Way::ALL {
        let library = taken_by(&mut library, way, &files)?;
        let model = taken_by(&mut model, way, &files)?;
        text += &format!("| {} | {library} | {model} |\n", way.name());
    }
    Ok(text)
}

fn taken_by(side: &mut (impl Side + Send), way: Way, files: &[Vec<u8>]) -> io::Result<String> {
    let taken = taken(|| files.iter().for_each(|file| side.play(way, file)))?;
    Ok(match taken {
        PAINTED => format!("{PAINTED} or more"),
        _ => taken.to_string(),
    })
}

/// How many bytes of stack a call takes, at most as many as are painted.
fn taken(call: impl FnOnce() + Send) -> io::Result<usize> {
    scope(|scope| {
        let thread = Builder::new().stack_size(2 * PAINTED);
        let thread = thread.spawn_scoped(scope, || {
            let low = paint();
            call();
            PAINTED - untouched(low)
        })?;
        Ok(thread.join().unwrap_or_else(|panic| resume_unwind(panic)))
    })
}

/// Paints the stack below the caller, and says where the paint begins.
#[inline(never)]
fn paint() -> usize {
    let painted = [PAINT; PAINTED];
    black_box(&painted).as_ptr() as usize
}

/// How much is painted still from `low` up.
#[inline(never)]
fn untouched(low: usize) -> usize {
    let is_painted = |&at: &usize| {
        // SAFETY: `paint` wrote this byte, and the stack of the thread that runs is there still. No
        // variable has it now, so the read is volatile: nothing is concluded from it.
        unsafe { ((low + at) as *const u8).read_volatile() == PAINT }
    };
    (0..PAINTED).take_while(is_painted).count()
}

#[cfg(test)]
mod tests {
    use super::*;

    #[inline(never)]
    fn fill<const BYTES: usize>() {
        let bytes = [black_box(1u8); BYTES];
        black_box(&bytes);
    }

    #[test]
    fn what_a_call_takes_is_seen() {
        let nothing = taken(|| {}).expect("a thread");
        assert!(nothing < 2000, "{nothing}");
        let much = taken(fill::<100_000>).expect("a thread");
        assert!((100_000..102_000).contains(&much), "{much}");
        let most = taken(fill::<{ PAINTED + 4096 }>).expect("a thread");
        assert_eq!(most, PAINTED);
    }
}
