//! The engines of the bench of runs: the proved library, the C interpreter of bench/, and the oracle.
//!
//! The first two are linked as they are, for counts of instructions, and once more in each code layout that
//! scripts/layouts.sh made of them, for times; where it made none, the one layout is what the linker gives.

use oracle::inputs::Input;

type Call =
    unsafe extern "C" fn(*mut u8, usize, *mut u8, usize, *const u8, usize, *mut u8, usize, *mut u32, u64) -> u64;

macro_rules! link {
    ($library:literal, $($call:ident),+) => {
        #[link(name = $library, kind = "static")]
        extern "C" {
            $(fn $call(
                m: *mut u8, ml: usize, r: *mut u8, rl: usize, e: *const u8, el: usize, l: *mut u8, ll: usize,
                d: *mut u32, n: u64,
            ) -> u64;)+
        }
    };
}

link!("xm23", xm23_run);
link!("xm23_fast", xm23_fast_run);
#[cfg(layouts)]
link!("xm23_layouts", xm23_run_a, xm23_run_b, xm23_fast_run_a, xm23_fast_run_b);

#[derive(Clone, Copy)]
pub enum Engine {
    C(Call),
    Oracle,
}

pub const RATTLE: Engine = Engine::C(xm23_run);
pub const C: Engine = Engine::C(xm23_fast_run);

/// The proved library and the C interpreter, in each layout.
#[cfg(layouts)]
pub const LAYOUTS: [[Engine; 2]; 2] =
    [[Engine::C(xm23_run_a), Engine::C(xm23_fast_run_a)], [Engine::C(xm23_run_b), Engine::C(xm23_fast_run_b)]];
#[cfg(not(layouts))]
pub const LAYOUTS: [[Engine; 2]; 1] = [[RATTLE, C]];

impl Engine {
    /// Runs an input in place.
    pub fn run(self, i: &mut Input) -> u64 {
        match self {
            Engine::Oracle => i.replied(),
            // Four buffers, each lent for its own length, and a number.
            Engine::C(call) => unsafe {
                let Input { memory, record, events, log, deepest, n } = i;
                let (m, r, l) = (memory.as_mut_ptr(), record.as_mut_ptr(), log.as_mut_ptr());
                call(m, memory.len(), r, record.len(), events.as_ptr(), events.len(), l, log.len(), deepest, *n)
            },
        }
    }

    fn address(self) -> usize {
        match self {
            Engine::Oracle => 0,
            Engine::C(call) => call as *const () as usize,
        }
    }
}

/// What the layouts are, in a sentence; stops where the code does not lie elsewhere in a cache line of 64 bytes.
pub fn layouts() -> String {
    let [first, .., last] = &LAYOUTS[..] else {
        return "times are of one code layout, as the linker gave it: scripts/layouts.sh has not made two".into();
    };
    let [ours, c] = [0, 1].map(|i| last[i].address().wrapping_sub(first[i].address()) % 4_096);
    assert!(ours == c && ours % 64 != 0, "two code layouts that are one");
    format!("times are the best of two code layouts, a and b, which are {ours} bytes apart modulo a page of 4,096")
}
