//! Loads while other threads change variables. This is one test, since it is about its process.

use dotenvy::{Dialect, EnvMap, Mode};
use std::env;
use std::sync::atomic::{AtomicBool, Ordering};
use std::thread;

const LOADS: usize = 3000;

// Variables of the other threads, beside those that the file declares.
const NAMES: [&str; 4] = ["THREAD_A", "THREAD_B", "THREAD_C", "THREAD_D"];

// A load reads the variables that its file mentions, and writes only those that it declares. The variables of the
// threads are mentioned, and not declared.
const FILE: &[u8] = b"LOADED_A=1\nLOADED_B=<${THREAD_A}>\nLOADED_C=${LOADED_A}\n";

/// Sets and removes a variable until it is over. How often it was set back.
fn change(name: &str, is_over: &AtomicBool) -> usize {
    let (mut number, mut set_back) = (0_usize, 0_usize);
    while !is_over.load(Ordering::Relaxed) {
        number += 1;
        let value = number.to_string();
        env::set_var(name, &value);
        thread::yield_now();
        set_back += usize::from(env::var(name).as_ref() != Ok(&value));
        env::remove_var(name);
        thread::yield_now();
        set_back += usize::from(env::var_os(name).is_some());
    }
    set_back
}

/// One of the ways to load.
fn load(which: usize) {
    match which % 4 {
        0 => dotenvy::from_read(FILE).unwrap(),
        1 => dotenvy::from_read_override(FILE).unwrap(),
        2 => {
            let mut items = dotenvy::from_read_iter(FILE);
            items.next().unwrap().unwrap();
            items.load().unwrap();
        }
        _ => {
            let mut map = EnvMap::from_process();
            map.add(FILE, Mode::Override, Dialect::V15).unwrap();
        }
    }
}

#[test]
fn a_load_sets_nothing_back() {
    let is_over = AtomicBool::new(false);
    env::set_var("KEPT", "kept");
    thread::scope(|scope| {
        let changers = NAMES.map(|name| scope.spawn(|| change(name, &is_over)));
        (0..LOADS).for_each(load);
        is_over.store(true, Ordering::Relaxed);
        assert_eq!(changers.map(|changer| changer.join().unwrap()), [0; 4]);
    });
    assert_eq!(env::var("KEPT").as_deref(), Ok("kept"));
    assert_eq!(env::var("LOADED_C").as_deref(), Ok("1"));
    // A variable that went during a load isn't brought back by the next one.
    dotenvy::from_read_override(&b"LOADED_A=2\n"[..]).unwrap();
    assert!(NAMES.iter().all(|name| env::var_os(name).is_none()));
}
