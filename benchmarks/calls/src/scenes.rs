//! Tables with a chain in them, and the calls made on them.

const READY: u16 = 1;
const SET: u16 = 1;
const BASE: u16 = 16;

#[derive(Clone, Debug)]
pub enum Call {
    IsSound,
    New { t: u16, p: u16 },
    Set { t: u16, p: u16 },
    GetValue { t: u16, p: u16 },
    GetWaits { t: u16, p: u16 },
    GetCycle { t: u16, p: u16 },
    Async { t: u16, c: u16, list: Vec<u16> },
    End { t: u16 },
}

impl Call {
    pub fn name(&self) -> &'static str {
        match self {
            Call::IsSound => "is_sound",
            Call::New { .. } => "new",
            Call::Set { .. } => "set",
            Call::GetValue { .. } => "get, value",
            Call::GetWaits { .. } => "get, waits",
            Call::GetCycle { .. } => "get, cycle",
            Call::Async { .. } => "async",
            Call::End { .. } => "end",
        }
    }

    /// The number that the call returns when the scene is as it should be.
    pub fn expected_number(&self) -> u16 {
        match self {
            Call::IsSound => 1,
            Call::New { .. } => 101,
            Call::Set { .. } => 102,
            Call::GetValue { .. } => 103,
            Call::GetWaits { .. } => 105,
            Call::GetCycle { .. } => 106,
            Call::Async { .. } => 107,
            Call::End { .. } => 108,
        }
    }
}

pub struct Scene {
    pub tasks: Vec<u16>,
    pub promises: Vec<u16>,
    pub calls: Vec<Call>,
}

/// Task 0 stands beside the chain of tasks 1 to `chain`: each of them owns the promise with its
/// own number and all but the last wait on the next one's. Promise P-1 is set, P-2 was never
/// made, and the others are set or owned by task 0. Where there is room, task T-1 was never used.
pub fn scene(task_count: usize, promise_count: usize, chain: usize) -> Scene {
    let mut tasks = vec![READY; task_count];
    let mut promises: Vec<u16> = (0..promise_count).map(|p| if p % 2 == 0 { BASE } else { SET }).collect();
    for t in 1..=chain {
        promises[t] = BASE + t as u16;
        if t < chain {
            tasks[t] = BASE + t as u16 + 1;
        }
    }
    let unmade = promise_count - 2;
    promises[unmade] = 0;
    promises[promise_count - 1] = SET;

    let end = chain as u16;
    let mut calls = vec![
        Call::IsSound,
        Call::New { t: 0, p: unmade as u16 },
        Call::Set { t: end, p: end },
        Call::GetValue { t: 0, p: promise_count as u16 - 1 },
        Call::GetWaits { t: 0, p: 1 },
        Call::GetCycle { t: end, p: 1 },
        Call::End { t: end },
    ];
    if chain + 2 <= task_count {
        tasks[task_count - 1] = 0;
        let owned = (0..promise_count as u16).filter(|&p| promises[p as usize] == BASE).take(4);
        calls.push(Call::Async { t: 0, c: task_count as u16 - 1, list: owned.collect() });
    }
    Scene { tasks, promises, calls }
}
