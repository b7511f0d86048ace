//! Asks the published Rust, and keeps its answers as stdin and stdout of the program that replays them.
//! `cargo run` writes them; `cargo run -- --check` says whether they are what would be written.

use oracle::components;
use oracle::record::{record, Component};
use std::path::Path;
use std::{env, fs, process};

/// Writes or checks the record of one component; answers whether it is as it should be.
fn keep<C: Component>(check: bool) -> bool {
    let told = record::<C>();
    let program = format!("{}{}", C::FOLDER, C::NAME);
    let folder = Path::new(env!("CARGO_MANIFEST_DIR"))
        .join("..")
        .join(&program);
    println!(
        "{program}: {} commands, {} left out, {} bytes",
        told.kept,
        told.left_out,
        told.stdin().len() + told.stdout().len()
    );
    let files = [("stdin", told.stdin()), ("stdout", told.stdout().to_vec())];
    for (name, bytes) in files {
        let path = folder.join(name);
        if !check {
            fs::create_dir_all(&folder).expect("a folder for the record");
            fs::write(&path, bytes).expect("the record is written");
        } else if fs::read(&path).ok() != Some(bytes) {
            println!("{program}/{name} differs");
            return false;
        }
    }
    true
}

fn main() {
    let check = env::args().any(|arg| arg == "--check");
    // An input at which the published files panic is left out, without a message. A panic of the oracle's own files ends it.
    std::panic::set_hook(Box::new(|panic| {
        if panic
            .location()
            .map_or(true, |at| at.file().starts_with("src/"))
        {
            eprintln!("{panic}");
            process::abort();
        }
    }));
    let same = [
        keep::<components::header::Header>(check),
        keep::<components::packet::Packet>(check),
        keep::<components::window::Window>(check),
        keep::<components::ordered_bytes::Buffer>(check),
        keep::<components::close_handler::Close>(check),
        keep::<components::net::Net>(check),
        keep::<components::ring_buffer::Ring>(check),
        keep::<components::ring_tests::RingTests>(check),
        keep::<components::writer::Writer>(check),
        keep::<components::acks::Acks>(check),
    ];
    if same.contains(&false) {
        process::exit(1);
    }
}
