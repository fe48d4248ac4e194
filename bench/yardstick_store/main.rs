//! What `store_bench` does with the store alone, by the yardstick's store: usage: yardstick_store WORK N
use yardstick::store::{APP, SORT, Store, VAR};

fn distinct(store: &mut Store, n: u32) -> u32 {
    let mut last = store.mk(SORT, 0, 0, 0);
    for i in 0..n {
        last = store.mk(APP, last, i / 2, 0);
    }
    last
}

fn main() {
    let words: Vec<String> = std::env::args().collect();
    let n: u32 = words[2].parse().unwrap();
    let mut store = Store::first();
    let mut e = u64::from(distinct(&mut store, n));
    match words[1].as_str() {
        "repeat" => e = u64::from(distinct(&mut store, n)),
        "overlays" => {
            let base = store.ov;
            let mut over = Store::new(&base);
            e = 0;
            for i in 0..n {
                over.ov.reset();
                let last = over.mk(VAR, i, 0, 0);
                e += u64::from(over.mk(APP, last, last, 0));
            }
        }
        _ => {}
    }
    println!("{e}");
}
