//! Links libnic82540em.a.

#[path = "../rust_explore/assemble.rs"]
mod assemble;

fn main() {
    assemble::link("nic82540em", &["nic82540em_heap.c"], &["nic82540em"]);
}
