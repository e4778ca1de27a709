//! Tells how much stack each call of the archive takes, in KB, the most over the job files that are named.
//!
//!     SIGBROL_ARCHIVE=$PWD/crates/sigbrol/out/libsigbrol.a cargo run --release --offline --quiet \
//!         --manifest-path second/calls/Cargo.toml --bin stack jobs/real-*.job jobs/piece-255.job jobs/pixel-one.job

#[path = "../archive.rs"]
mod archive;

use calls::{kind::Kind, memory::Memory, scene::Scene};
use second::inputs::random::Random;
use std::{env, fs, ptr, thread};

/// The stack of a thread, and how much of it is painted before a call.
const STACK: usize = 16 << 20;
const PAINTED: usize = 12 << 20;

/// What is left free for the painter itself.
const OWN: usize = 4_096;

/// What the stack is painted with; no call has a reason to write it from end to end.
const PAINT: u8 = 0xa5;

/// Calls of each kind on each job: some layouts end a call early.
const CALLS: usize = 4;

/// Paints the stack below, makes a call and tells how far down it was written.
#[inline(never)]
fn used(kind: Kind, memory: &mut Memory) -> usize {
    let here = 0u8;
    let top = (&raw const here) as usize - OWN;
    // The thread's stack reaches further down than what is painted, and nothing of this thread lives there.
    unsafe {
        (1..=PAINTED).for_each(|below| ptr::write_volatile((top - below) as *mut u8, PAINT));
    }
    archive::call(kind, memory);
    let untouched =
        |below: &usize| unsafe { ptr::read_volatile((top - below) as *const u8) } == PAINT;
    PAINTED - (1..=PAINTED).rev().take_while(untouched).count()
}

/// The most stack of some calls on a job.
fn most(kind: Kind, scene: &Scene) -> usize {
    let random = &mut Random::new(1);
    let mut most = 0;
    for _ in 0..CALLS {
        let mut memory = scene.memory(random, kind);
        most = most.max(used(kind, &mut memory));
    }
    most
}

fn main() {
    let scenes: Vec<Scene> = env::args()
        .skip(1)
        .map(|path| Scene::new(path.clone(), fs::read(path).expect("a job file")))
        .collect();
    let scenes = &scenes;
    for kind in Kind::ALL {
        let bytes = thread::scope(|scope| {
            let begin = thread::Builder::new().stack_size(STACK);
            let told =
                begin.spawn_scoped(scope, || scenes.iter().map(|scene| most(kind, scene)).max());
            told.expect("a thread begins")
                .join()
                .expect("a thread ends")
        });
        println!("{kind:?} {}", bytes.unwrap_or(0).div_ceil(1024));
    }
}
