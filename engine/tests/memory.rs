//! What the lent memory holds after a compile, whatever it held before.

mod files;

use sinalvento::{Buffers, MAX_PLAN, MIN_WORK, call, compile, compile_into};

/// No byte of it is 0.
fn dirt(length: usize) -> Vec<u8> {
    (0..length).map(|at| (at % 255) as u8 + 1).collect()
}

fn all_zero(bytes: &[u8]) -> bool {
    bytes.iter().all(|&byte| byte == 0)
}

#[test]
fn d1_by_buffers_that_are_used_again() {
    let mut buffers = Buffers::default();
    for _ in 0..3 {
        let plan = compile(&files::d1(), &mut buffers).expect("D1 is accepted");
        assert_eq!(plan, files::d1_plan());
    }
}

#[test]
fn zero_past_the_plan() {
    for work_length in [MIN_WORK, MIN_WORK + 1, 3 * MIN_WORK] {
        let (mut plan, mut work) = (dirt(2 * MAX_PLAN), dirt(work_length));
        let length = compile_into(&files::d1(), &mut plan, &mut work)
            .expect("D1 is accepted")
            .len();
        assert_eq!(plan[..length], files::d1_plan());
        assert!(all_zero(&plan[length..]));
        assert!(all_zero(&work));
    }
}

#[test]
fn all_zero_after_a_refusal() {
    for (number, file) in files::refused() {
        let (mut plan, mut work) = (dirt(MAX_PLAN), dirt(MIN_WORK));
        let result = call(&file, &mut plan, &mut work);
        assert_eq!(result, u64::from(number) << 16);
        assert!(all_zero(&plan) && all_zero(&work), "{number}");
    }
}

#[test]
fn all_zero_where_there_is_too_little_of_it() {
    for (number, plan_length, work_length) in [
        (2, MAX_PLAN, MIN_WORK - 1),
        (2, 0, 0),
        (15, files::d1_plan().len() - 1, MIN_WORK),
        (15, 0, MIN_WORK),
    ] {
        let (mut plan, mut work) = (dirt(plan_length), dirt(work_length));
        assert_eq!(call(&files::d1(), &mut plan, &mut work), number << 16);
        assert!(all_zero(&plan) && all_zero(&work), "{number}");
    }
}

#[test]
fn threads_with_memory_of_their_own() {
    std::thread::scope(|scope| {
        for _ in 0..4 {
            scope.spawn(|| {
                let mut buffers = Buffers::new();
                for _ in 0..200 {
                    let plan = compile(&files::d1(), &mut buffers);
                    assert_eq!(plan, Ok(files::d1_plan().as_slice()));
                    for (number, file) in files::refused() {
                        let refusal = compile(&file, &mut buffers).expect_err("it is refused");
                        assert_eq!(refusal.number(), number);
                    }
                }
            });
        }
    });
}
