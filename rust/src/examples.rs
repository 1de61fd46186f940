//! Single executions: those of the papers by their names, from the files in `executions/`, and one whose record is the longest.

use crate::executions::source;
use crate::reference::notation::{access, programs, semaphore, uc};
use crate::reference::record::{
    Execution, Instruction, Kind, LINE_SIZE, MAX_LINES, MAX_PROCESSORS, MAX_SIZE,
};

/// The execution of this name in a file of `executions/`, on WB.
pub fn named(file: &str, name: &str) -> Execution {
    let all = source(file).unwrap_or_else(|wrong| panic!("{wrong}"));
    let found = all.into_iter().find(|written| written.name == name);
    let found = found.unwrap_or_else(|| panic!("executions/{file}.txt has no execution {name}"));
    found.execution
}

/// K1, which K3 and K5 judge orders of.
pub fn k1() -> Execution {
    named("scope", "K1")
}

/// K4's execution: K1 on UC.
pub fn k1_uncacheable() -> Execution {
    let mut execution = k1();
    execution.lines[0].attribute = uc(0);
    execution
}

/// Eight processors, 14 stores on the first: 126 operations.
pub fn eight_processors() -> Execution {
    named("scope", "eight processors")
}

/// Eight processors with five instructions each, all of entries with nineteen bytes: four loads and a store of sixteen bytes,
/// or in place of the store a semaphore; and 40 pairs. No record has more bytes. Two processors share each block of sixteen
/// bytes, and every load sees what the instructions before it in the record have written there.
pub fn longest() -> Execution {
    let mut memory = [[0; MAX_SIZE]; MAX_LINES * LINE_SIZE / MAX_SIZE];
    let mut program = |p: usize| -> Vec<Instruction> {
        let block = p % memory.len();
        let (address, bytes) = ((block * MAX_SIZE) as u8, &mut memory[block]);
        let loads = [Kind::Load, Kind::LoadAcquire];
        let before = loads.map(|kind| access(kind, address, &bytes[..]));
        let written = [p as u8 + 1; MAX_SIZE];
        let store = match p % 4 {
            0 => access(Kind::Store, address, &written),
            2 => access(Kind::StoreRelease, address, &written),
            odd => {
                let kind = [Kind::SemaphoreAcquire, Kind::SemaphoreRelease][odd / 2];
                semaphore(kind, address + 8, &bytes[8..], &written[8..])
            }
        };
        for at in store.addresses() {
            bytes[at % MAX_SIZE] = store.byte_written(at);
        }
        let after = [0; 2].map(|_| access(Kind::Load, address, &bytes[..]));
        [&before[..], &[store], &after].concat()
    };
    let all: Vec<Vec<Instruction>> = (0..MAX_PROCESSORS).map(&mut program).collect();
    let all: Vec<&[Instruction]> = all.iter().map(Vec::as_slice).collect();
    let mut draft = programs(&all);
    for p in 0..MAX_PROCESSORS as u8 {
        for (earlier, later) in [(0, 1), (0, 2), (0, 3), (1, 4), (2, 4)] {
            draft = draft.pair(5 * p + earlier, 5 * p + later);
        }
    }
    draft.build()
}
