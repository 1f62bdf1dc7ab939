//! Plans two small waves by `libmrjob`, and checks plans.
//!
//! From the top of the repository, after `make library`:
//!     cargo run --manifest-path examples/rust/Cargo.toml
use mrjob::{Fault, Network, Pair, Plan, Split, Verdict, Wave, Worker};

fn show_total(plan: &Plan) {
    println!("{} splits start at byte-distance {}", plan.count, plan.cost);
}

fn show(verdict: Verdict) {
    let name = |names: &[&str], place: Option<u16>| {
        place.map_or(String::new(), |it| format!(" {}", names[it as usize]))
    };
    match verdict {
        Verdict::Certified { count, cost } => println!("certified {count} {cost}"),
        Verdict::Refused { condition, split, worker } => {
            println!("refused C{condition}{}{}", name(&["s", "t"], split), name(&["a", "b"], worker));
        }
    }
}

/// Two splits that both lie on one of two workers, which has one slot.
fn plan_two() -> Result<(), Fault> {
    let worker = Worker { rack: 0, free: 1, live: 1 };
    let split = |bytes, first_holder| Split { bytes, first_holder, holder_count: 1, pending: 1 };
    let wave = Wave {
        centres: 1,
        centre_of: &[0],
        workers: &[worker, worker],
        splits: &[split(10, 0), split(20, 1)],
        holders: &[0, 0],
        barred: &[],
    };
    let plan = wave.plan(Network::Racks)?;
    show_total(&plan);
    for (split, start) in ["s", "t"].iter().zip(&plan.starts) {
        if let Some(worker) = start {
            println!("{split} on {}", ["a", "b"][*worker as usize]);
        }
    }
    show(wave.check(&plan.starts, &plan.split_prices, &plan.worker_prices)?);
    // each split in turn on its nearest free worker
    show(wave.check(&[Some(0), Some(1)], &[101, 91], &[30, 0])?);
    let barred = [Pair { split: 2, worker: 0 }];
    assert_eq!(Wave { barred: &barred, ..wave }.plan(Network::Direct), Err(Fault::Barred));
    Ok(())
}

/// 1,024 splits of many sizes, which lie on 64 of 256 workers in two data centres.
fn plan_many() -> Result<(), Fault> {
    let centre_of: Vec<u16> = (0..32).map(|rack| rack % 2).collect();
    let workers: Vec<Worker> =
        (0..256).map(|w| Worker { rack: w % 32, free: 3 + (w % 4) as u8, live: 1 }).collect();
    let splits: Vec<Split> = (0..1024)
        .map(|s| Split {
            bytes: 1 + 7919 * s as u64 % 1024 * 65535,
            first_holder: 3 * s,
            holder_count: 3,
            pending: 1,
        })
        .collect();
    let holders: Vec<u16> = (0..1024).flat_map(|s| (0..3).map(move |k| (5 * s + 21 * k) % 64)).collect();
    let wave = Wave {
        centres: 2,
        centre_of: &centre_of,
        workers: &workers,
        splits: &splits,
        holders: &holders,
        barred: &[],
    };
    let plan = wave.plan(Network::Racks)?;
    show_total(&plan);
    show(wave.check(&plan.starts, &plan.split_prices, &plan.worker_prices)?);
    Ok(())
}

fn main() -> Result<(), Fault> {
    assert_eq!(Wave::default().plan(Network::Racks).map(|plan| plan.count), Ok(0));
    plan_two()?;
    plan_many()
}
