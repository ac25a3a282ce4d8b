//! Links libnic82540em_explore.a.

mod assemble;

fn main() {
    let files = ["nic82540em_explore.c", "nic82540em_malloc.c"];
    assemble::link("nic82540em_explore", &files, &["nic82540em", "search"]);
}
